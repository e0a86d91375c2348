"""`places` on whole programs: what the core has, with its names and places."""

from tables import USAGE, answers, refusals, spoken

PLACES = ("places", "a.pony")

# A class whose added constructor sets a field.
CELL = b"""\
class Cell
  var n: U64 = 5
actor Main
  new create(env: Env) =>
    let c: Cell iso = Cell
    c.n = 6
"""

CELL_PLACES = b"""\
rcap-places 1 8 2 3 4 13
e primitive val 0 0 None
e primitive val 0 0 U64
e primitive val 0 0 Bool
e primitive val 0 0 String
e class val 0 0 Env
e actor tag 0 0 OutStream
e class ref 6 10 Cell
e actor tag 34 38 Main
f 4 let 5 tag out
f 6 var 1 val n
m 5 be 0 0 0 0 - print
m 6 new 6 10 0 0 - create
m 7 spawn 45 51 1 6 - create
s 0 this 0 0 -
s 0 this 0 0 -
s 0 param 52 55 env
s 0 let 73 74 c
n number 1 0 26 27
n this 1 0 17 18
n setfield:n 1 0 17 18 0 1
n prim:0 1 0 6 10
n seq 1 0 6 10 2 3
n body 1 0 6 10 4
n new:1 2 0 87 91
n define:2 2 0 69 91 6
n number 2 0 102 103
n local:2 2 0 96 97
n setfield:n 2 0 96 103 8 9
n seq 2 0 69 103 7 10
n body 2 0 45 51 11
"""

# A class takes over a method from the second of two traits, of which the first comes after it in the text. The bodies of the two
# have a local with the same name. `check` refuses it, since a number is not a text.
TAKEN = b"""\
trait Greets
  fun hello(): U64 => let /* no name */ x: U64 = 1
class A is (Later & Greets)
trait Later
actor Main
  new create(env: Env) => recover var x': String = 2 end
"""

TAKEN_PLACES = b"""\
rcap-places 1 10 1 5 7 13
e primitive val 0 0 None
e primitive val 0 0 U64
e primitive val 0 0 Bool
e primitive val 0 0 String
e class val 0 0 Env
e actor tag 0 0 OutStream
e trait ref 6 12 Greets
e class ref 70 71 A
e trait ref 98 103 Later
e actor tag 110 114 Main
f 4 let 5 tag out
m 5 be 0 0 0 0 - print
m 6 fun 19 24 0 0 - hello
m 7 new 70 71 1 0 - create
m 7 fun 19 24 2 3 6 hello
m 9 spawn 121 127 4 7 - create
s 0 this 0 0 -
s 0 this 0 0 -
s 0 this 0 0 -
s 0 let 53 54 x
s 0 this 0 0 -
s 0 param 128 131 env
s 1 var 153 155 x'
n prim:0 2 0 70 71
n seq 2 0 70 71 0
n body 2 0 70 71 1
n number 3 0 62 63
n define:1 3 0 35 63 3
n seq 3 0 35 63 4
n body 3 0 19 24 5
n number 4 1 166 167
n define:2 4 1 149 167 7
n seq 4 1 149 167 8
n recover 4 0 141 171 9
n seq 4 0 141 171 10
n body 4 0 121 127 11
"""

TOLD = [
    ("a field that an added constructor sets", CELL, b"", CELL_PLACES),
    # Names are those of the trait's text, even if they come after a comment.
    ("a method that is taken over", TAKEN, b"", TAKEN_PLACES),
]

REFUSED = [
    ("no bytes", b"", b"", 3, b"a.pony:1:1: unexpected\n"),
    ("a bad byte", b"actor $", b"", 3, b"a.pony:1:7: bad byte\n"),
    ("no Main", b"class C\n", b"", 4, b"a.pony: no Main\n"),
]

WORDS = [
    (("places",), 2, USAGE),
    (("places", "a.pony", "a.der"), 2, USAGE),
]

ROWS = [
    *answers("places are reported", PLACES, TOLD),
    *spoken("words name places", CELL, WORDS),
    *refusals("a source without a core has no places", PLACES, REFUSED),
]
