"""`check` and `judge` on small bodies, on texts without tokens, and on derivations."""

from programs import FIRST, ONE_OBJECT, OPEN, SECOND
from tables import CHECK, JUDGE, answers, endings, refusals
from texts import changed

BODIES = [
    (b"    let a: C iso = C\n", 0, b""),
    (b"    let a: C iso = C\n    let b: C iso = a\n", 1, b"a.pony:5:5: no rule\n"),
    (b"    let a: C iso = C\n    let b: C iso = consume a\n    let d: C tag = a\n", 1, b"a.pony:6:20: no rule\n"),
    (b"    let a: C iso = C\n    let b: C iso = consume a\n    let d: C tag = b\n", 0, b""),
    (b"    let a: C iso = C // one\n    /* two */ let b: C tag = a", 0, b""),
    (b"    let a: C iso = C let b: C tag = a\n", 3, b"a.pony:4:22: unexpected\n"),
    (b"    let a: C iso = C; let b: C tag = a\n", 0, b""),
    (b"    \"\"\"Makes one.\"\"\"\n    C\n", 0, b""),
    (b"    (let a: C iso = C; consume a)\n", 0, b""),
    (b"    None\n", 0, b""),
    (b"    let a: C iso = (C; C)\n    env", 0, b""),
    (b"    env.out\n", 0, b""),
    (b"    let a: U64 = 1\n", 0, b""),
    (b"    let a: D iso = C\n", 4, b"a.pony:4:12: name unknown\n"),
    (b"    let a: C iso = b\n", 4, b"a.pony:4:20: name unknown\n"),
    (b"    let a: C iso = C\n    let a: C iso = C\n", 4, b"a.pony:5:9: name twice\n"),
    (b"    let a: U64 = 18446744073709551616\n", 3, b"a.pony:4:18: bad number\n"),
]

TOKENLESS = [
    (b"class C /* a /* b */", 3, b"a.pony:1:9: not closed\n"),
    (b"class C \"\\q", 3, b"a.pony:1:9: not closed\n"),
    (b"class C \"\\q\"", 3, b"a.pony:1:10: bad escape\n"),
    (b"\xff", 3, b"a.pony:1:1: bad byte\n"),
    (b"0b2", 3, b"a.pony:1:1: bad number\n"),
    (b"1__2", 3, b"a.pony:1:1: bad number\n"),
    (b"class C\n\n  $", 3, b"a.pony:3:3: bad byte\n"),
]

# FIRST with another type of the new object.
WRONG_NODE = b"""\
rcap-derivation 1 4 7
s 6 ref
s 7 ref
s 4 val
s 6 iso
n prim 0 val 1 0 1 0
n seq 0 val 1 0 1 0
n body - 1 0 1 0
n new 6 ref 3 0 3 0
n define - 3 0 7 0
n seq - 3 0 3 0
n body - 3 0 3 0
"""

# The same in version 2.
WRONG_NODE_SECOND = changed(SECOND, b"n new 6 iso^ 3 0 0 0\n", b"n new 6 ref 3 0 0 0\n")

# FIRST with another type of the local.
WRONG_SLOT = changed(FIRST, b"s 6 iso\n", b"s 6 val\n")

# FIRST without its last line end.
UNENDED = FIRST[:-1]

# FIRST with one more line end.
LONGER = FIRST + b"\n"

# The lines of FIRST up to the first node, with a number that begins with 0.
ZEROS = b"""\
rcap-derivation 1 4 7
s 6 ref
s 7 ref
s 4 val
s 6 iso
n prim 00 val 1 0 1 0
"""

DERIVATIONS = [
    ("another type of an object", ONE_OBJECT, WRONG_NODE, 6, b"a.der: node 3\n"),
    ("another type of a local", ONE_OBJECT, WRONG_SLOT, 6, b"a.der: slot 3\n"),
    ("no lines", ONE_OBJECT, b"rcap-derivation 1 0 0\n", 6, b"a.der: shape\n"),
    ("no last line end", ONE_OBJECT, UNENDED, 5, b"a.der:12: bad line\n"),
    # A text that breaks off comes before a node that is wrong.
    ("no last line end, and another type of an object", ONE_OBJECT, WRONG_NODE[:-1], 5, b"a.der:12: bad line\n"),
    ("another type of an object, in version 2", ONE_OBJECT, WRONG_NODE_SECOND, 6, b"a.der: node 3\n"),
    ("70000 more line ends", ONE_OBJECT, FIRST + b"\n" * 70_000, 5, b"a.der:13: bad line\n"),
    ("a number that begins with 0", ONE_OBJECT, ZEROS, 5, b"a.der:6: bad line\n"),
    ("one more line end", ONE_OBJECT, LONGER, 5, b"a.der:13: bad line\n"),
]

# A local that is defined in the value of another. The slots are in the order of the text, so `b` is the last, though it is defined
# first.
NESTED = b"""\
actor Main
  new create(env: Env) =>
    let a: U64 = (let b: Bool = true; 1)
"""

NESTED_FIRST = b"""\
rcap-derivation 1 4 7
s 6 ref
s 4 val
s 1 val
s 2 val
n truth 2 val 3 0 3 0
n define - 3 0 b 0
n number 1 val b 0 b 0
n seq 1 val 3 0 3 0
n define - 3 0 7 0
n seq - 3 0 3 0
n body - 3 0 3 0
"""

WRITTEN = [
    ("a program with one object", ONE_OBJECT, b"", FIRST),
    ("a local in the value of another", NESTED, b"", NESTED_FIRST),
]

ROWS = [
    *endings("bodies are accepted or refused", BODIES, before=OPEN),
    *endings("a source without tokens has its fault named", TOKENLESS),
    *answers("a derivation is judged", JUDGE, [("that of the program", ONE_OBJECT, FIRST, b"accepted\n")]),
    *refusals("a derivation is judged", JUDGE, DERIVATIONS),
    *answers("a derivation is written", CHECK, WRITTEN),
]
