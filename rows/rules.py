"""The conditions of the rules: for each, a source that meets it, or one that does not."""

from programs import IDLE, OPEN
from tables import endings

NO_RULE = b"a.pony:4:5: no rule\n"

# An operand, a condition, a value or an argument of another type, and another number of arguments.
TYPES = [
    (b"    1 + true\n", 1, NO_RULE),
    (b"    \"a\" + 1\n", 1, NO_RULE),
    (b"    1 < true\n", 1, NO_RULE),
    (b"    1 == true\n", 1, NO_RULE),
    (b"    true and 1\n", 1, NO_RULE),
    (b"    true xor 1\n", 1, NO_RULE),
    (b"    not 1\n", 1, NO_RULE),
    (b"    1 is true\n", 0, b""),
    (b"    1.string(2)\n", 1, NO_RULE),
    (b"    \"a\".string()\n", 1, NO_RULE),
    (b"    true.string()\n", 0, b""),
    (b"    C(1)\n", 1, NO_RULE),
    (b"    Main(1)\n", 1, NO_RULE),
    (b"    if 1 then None end\n", 1, NO_RULE),
    (b"    while 1 do None end\n", 1, NO_RULE),
    (b"    let a: U64 = true\n", 1, NO_RULE),
    # Without an `else`, the missing branch gives None.
    (b"    let a: U64 = if true then 1 end\n", 1, NO_RULE),
    (b"    let a: U64 = if true then 1 else 2 end\n", 0, b""),
]

# A `let` has one value. What is `val` comes out of a `recover` unchanged, and as nothing that may write.
LOCALS = [
    (b"    var a: U64 = 1\n    a = 2\n", 0, b""),
    (b"    let a: U64 = 1\n    a = 2\n", 1, b"a.pony:5:5: no rule\n"),
    (b"    let v: C val = C\n    recover val v end\n", 0, b""),
    (b"    let v: C val = C\n    recover iso v end\n", 1, b"a.pony:5:5: no rule\n"),
]

FIELDS = b"""\
class D
  let n: U64 = 1
  var m: U64 = 1
actor Main
  new create(env: Env) =>
"""

NO_FIELD = b"a.pony:7:5: no rule\n"

# Through which capability a field is read and written; a `let` field cannot be written from outside.
ORIGINS = [
    (b"    let d: D ref = D\n    d.m = 2\n", 0, b""),
    (b"    let d: D ref = D\n    d.n = 2\n", 1, NO_FIELD),
    (b"    let d: D val = D\n    d.m = 2\n", 1, NO_FIELD),
    (b"    let d: D box = D\n    d.m = 2\n", 1, NO_FIELD),
    (b"    let d: D box = D\n    d.m\n", 0, b""),
    (b"    let d: D tag = D\n    d.m\n", 1, NO_FIELD),
]

UNSET = b"class D\n  var n: U64\n  let m: U64\n  new create() =>\n"

# What can be done with an object that is not finished yet: its set fields can be read, and its identity used.
UNFINISHED = [
    (b"    n = 1\n    m = n\n", 0, b""),
    (b"    m = n\n    n = 1\n", 1, b"a.pony:5:9: no rule\n"),
    (b"    m = 1\n    m = 2\n    n = 3\n", 1, b"a.pony:6:5: no rule\n"),
    (b"    n = 1\n    n = 2\n    m = 3\n", 0, b""),
    (b"    n = 1\n    m = 2\n    m = 3\n", 1, b"a.pony:7:5: no rule\n"),
    (b"    let d: D tag = this\n    n = 1\n    m = 2\n", 0, b""),
    (b"    let d: D ref = this\n    n = 1\n    m = 2\n", 1, b"a.pony:5:5: no rule\n"),
    (b"    n = 1\n    m = 2\n    let d: D ref = this\n", 0, b""),
]

SENDING = b"""\
actor A
  be b(n: U64) => None
actor Main
  new create(env: Env) =>
"""

NO_MESSAGE = b"a.pony:5:5: no rule\n"

MESSAGES = [
    (b"    A().b(1)\n", 0, b""),
    (b"    A().b(true)\n", 1, NO_MESSAGE),
    (b"    A().b()\n", 1, NO_MESSAGE),
    (b"    A().c(1)\n", 1, NO_MESSAGE),
]

CALLING = b"""\
class D
  fun f() => None
  fun ref g() => None
actor Main
  new create(env: Env) =>
"""

NO_CALL = b"a.pony:7:5: no rule\n"

# A receiver that is `iso` is recovered for a call that requires `ref`.
RECEIVERS = [
    (b"    let d: D box = D\n    d.f()\n", 0, b""),
    (b"    let d: D box = D\n    d.g()\n", 1, NO_CALL),
    (b"    let d: D val = D\n    d.g()\n", 1, NO_CALL),
    (b"    let d: D tag = D\n    d.f()\n", 1, NO_CALL),
    (b"    let d: D ref = D\n    d.g()\n", 0, b""),
    (b"    let d: D iso = D\n    d.g()\n", 0, b""),
]

ROWS = [
    *endings("parts have the types that are asked", TYPES, before=OPEN),
    *endings("locals are written and recovered", LOCALS, before=OPEN),
    *endings("fields are read and written through what may", ORIGINS, before=FIELDS),
    *endings("an object that is not whole is a tag", UNFINISHED, before=UNSET, after=IDLE),
    *endings("a message has the arguments of its behaviour", MESSAGES, before=SENDING),
    *endings("a receiver fits its method", RECEIVERS, before=CALLING),
]
