"""The nodes of bodies, as `places` reports them: all those of a file, and some of long bodies. What a node has inside that is not
reported, as the value of a number, is in `crates/pc_core_tests`."""

from cores import nodes_are, nodes_at
from steps import Row
from tables import PLACES, answered, named

# Classes with constructors and without one, an actor, a primitive, a trait, and the class `E` with the bodies: its methods are 4 to
# 8, and the added `create` of `D` is 9.
FILE = b"""\
class C
  new create(n: U64) => None
  new make(c: C) => None
actor A
  new create() => None
primitive P
trait T
class E
  var f: U64 = 7
  fun go() => None
  new create(env: U64) =>
let c = C; let d = C(1)
C.make(d); c(2); P(); A
  fun m(x: U64) =>
if f then m(x) elseif x then f.g = consume x end
  fun k(): U64 =>
var y = recover iso 1 + 2 + 3 end; y = (4; y is y); this.f.m(y)
  fun j(): U64 => 7
class D
  var f: U64 = 7
actor Main
  new create(env: Env) => None
"""

# A constructor with one parameter, after an initial value.
FIRST = b"""\
n number 5 0 136 137
n this 5 0 127 128
n setfield:f 5 0 127 128 13 14
n new:1 5 0 191 192
n define:2 5 0 183 192 16
n number 5 0 204 205
n new:1 5 0 202 206 18
n define:3 5 0 194 206 19
n local:3 5 0 214 215
n new:2 5 0 207 216 21
n number 5 0 220 221
n local:2 5 0 218 219
n call:apply 5 0 218 222 23 24
n prim:8 5 0 224 227
n spawn:3 5 0 229 230
n seq 5 0 183 230 15 17 20 22 25 26 27
n body 5 0 163 169 28
"""

# A function with one parameter and without a result, and a choice without an `else`.
SECOND = b"""\
n this 6 0 253 254
n field:f 6 0 253 254 30
n seq 6 0 253 254 31
n local:1 6 0 262 263
n this 6 0 260 261
n call:m 6 0 260 264 33 34
n seq 6 0 260 264 35
n local:1 6 0 272 273
n seq 6 0 272 273 37
n consume:1 6 0 285 294
n this 6 0 279 280
n field:f 6 0 279 280 40
n setfield:g 6 0 279 294 39 41
n seq 6 0 279 294 42
n prim:0 6 0 295 298
n seq 6 0 295 298 44
n if 6 0 265 298 38 43 45
n seq 6 0 265 298 46
n if 6 0 250 298 32 36 47
n prim:0 6 0 237 238
n seq 6 0 250 298 48 49
n body 6 0 237 238 50
"""

# A function with a result, a `recover` and a group.
THIRD = b"""\
n number 7 1 337 338
n number 7 1 341 342
n binary 7 1 337 342 52 53
n number 7 1 345 346
n binary 7 1 337 346 54 55
n seq 7 1 337 346 56
n recover 7 0 325 350 57
n define:1 7 0 317 350 58
n number 7 0 357 358
n local:1 7 0 360 361
n local:1 7 0 365 366
n same 7 0 360 366 61 62
n seq 7 0 356 367 60 63
n assign:1 7 0 352 367 64
n local:1 7 0 378 379
n this 7 0 369 373
n field:f 7 0 369 375 67
n call:m 7 0 369 380 66 68
n seq 7 0 317 380 59 65 69
n body 7 0 305 306 70
"""

# A function whose body is a number.
NUMBER = b"""\
n number 8 0 399 400
n seq 8 0 399 400 72
n body 8 0 387 388 73
"""

# An added `create`, after an initial value.
ADDED = b"""\
n number 9 0 424 425
n this 9 0 415 416
n setfield:f 9 0 415 416 75 76
n prim:0 9 0 407 408
n seq 9 0 407 408 77 78
n body 9 0 407 408 79
"""

# The number of the first node of a body, and its nodes.
BODIES = [
    ("a constructor", 13, FIRST),
    ("a function with a choice", 30, SECOND),
    ("a function with a recover", 52, THIRD),
    ("a number", 72, NUMBER),
    ("an added constructor", 75, ADDED),
]

# The term `1` and each operator have two nodes, and there are one more and a sequence and a body around them.
OPERATORS = {
    0: b"n number 1 0 37 38",
    1: b"n number 1 0 39 40",
    2: b"n binary 1 0 37 40 0 1",
    4: b"n binary 1 0 37 42 2 3",
    199_987: b"n number 1 0 200025 200026",
    199_988: b"n binary 1 0 37 200026 199986 199987",
    199_989: b"n seq 1 0 37 200026 199988",
    199_990: b"n body 1 0 17 23 199989",
}

# Each call has one node, around the one before.
CALLS = {
    0: b"n number 1 0 37 38",
    1: b"n call:m 1 0 37 42 0",
    2: b"n call:m 1 0 37 46 1",
    49_997: b"n call:m 1 0 37 200026 49996",
    49_998: b"n seq 1 0 37 200026 49997",
    49_999: b"n body 1 0 17 23 49998",
}

# Each arm has six nodes, except that the first has five, and the missing `else` has two. The conditions and branches of all arms
# come first, then the missing `else`, and then each `if` with its sequence, from the last arm on.
ARMS = {
    0: b"n number 1 0 40 41",
    1: b"n seq 1 0 40 41 0",
    3: b"n seq 1 0 47 48 2",
    120_000: b"n number 1 0 480040 480041",
    120_003: b"n seq 1 0 480047 480048 120002",
    120_005: b"n seq 1 0 480049 480052 120004",
    120_006: b"n if 1 0 480033 480052 120001 120003 120005",
    120_007: b"n seq 1 0 480033 480052 120006",
    180_006: b"n if 1 0 37 480052 1 3 180005",
    180_007: b"n seq 1 0 37 480052 180006",
    180_008: b"n body 1 0 17 23 180007",
}

# Each item has one node.
ITEMS = {
    0: b"n number 1 0 37 38",
    1: b"n number 1 0 39 40",
    99_994: b"n number 1 0 200025 200026",
    99_996: b"n body 1 0 17 23 99995",
}

# The body of a Main, as long as the tokens of a file may be, but for the arms; how many nodes there are, and some.
LONG = [
    ("operators", b"1" + b"+1" * 99_994, 199_991, OPERATORS),
    ("calls", b"1" + b".m()" * 49_997, 50_000, CALLS),
    ("arms", b"if 1 then 1 " + b"elseif 1 then 1 " * 30_000 + b"end", 180_009, ARMS),
    ("items", b"1" + b";1" * 99_994, 99_997, ITEMS),
]


def in_main(body):
    """A Main with this body."""
    return b"actor Main\n  new create(env: Env) => " + body + b"\n"


ROWS = [
    *(
        Row(named("bodies have these nodes", name), (answered(PLACES, FILE, b"", nodes_are(first, lines.splitlines())),))
        for name, first, lines in BODIES
    ),
    *(
        Row(named("long bodies have these nodes", name), (answered(PLACES, in_main(body), b"", nodes_at(count, wanted)),))
        for name, body, count, wanted in LONG
    ),
]
