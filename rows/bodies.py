"""Faults of the names in a body: which fault a body has, and at which name. Each body is one line of a constructor with a parameter
`p`, of a class with a field `f` and a method `m`, and begins in a given column."""

from tables import name_faults

# Classes without a `create` and with one that is added, a primitive, a trait, and the class around the body, which is line 10.
BEFORE = b"""\
class C
  new make(p: U64) => None
class D
primitive P
trait T
class E
  var f: U64 = 1
  fun m() => None
  new create(p: U64) =>
"""

AFTER = b"\nactor Main\n  new create(env: Env) => None\n"

# In column 21.
EXPRESSIONS = [
    (b"p", None),
    (b"f", None),
    (b"x", (4, b"a.pony:10:21: name unknown\n")),
    (b"m", (4, b"a.pony:10:21: name unknown\n")),
    (b"m()", None),
    (b"x()", (4, b"a.pony:10:21: name unknown\n")),
    (b"consume p", None),
    (b"consume f", (4, b"a.pony:10:29: name unknown\n")),
    (b"P", None),
    (b"None", None),
    (b"T", (4, b"a.pony:10:21: name unknown\n")),
    (b"U64", (4, b"a.pony:10:21: name unknown\n")),
    (b"Env", (4, b"a.pony:10:21: name unknown\n")),
    (b"Q", (4, b"a.pony:10:21: name unknown\n")),
    (b"D", None),
    (b"C", (4, b"a.pony:10:21: name unknown\n")),
    (b"C()", (4, b"a.pony:10:21: name unknown\n")),
    (b"C.make(p)", None),
    (b"C.zz(yy)", (4, b"a.pony:10:23: name unknown\n")),
    (b"C.make", (4, b"a.pony:10:23: name unknown\n")),
]

# In column 17, so that the name of the local is in column 21.
LOCALS = [
    (b"let x: T = p", None),
    (b"let x: Q = p", (4, b"a.pony:10:24: name unknown\n")),
    (b"let p = p", (4, b"a.pony:10:21: name twice\n")),
    (b"let f = p", (4, b"a.pony:10:21: name twice\n")),
    (b"let m = p", None),
    (b"let x =       x", (4, b"a.pony:10:31: name unknown\n")),
    (b"let f: Q =    y", (4, b"a.pony:10:21: name twice\n")),
]

# In column 16, so that the last part is in column 41.
GROUPS = [
    (b"(let x =       p;  x);   p", None),
    (b"(let x =       p;  x);   x", (4, b"a.pony:10:41: name unknown\n")),
]

# `y = z`, which evaluates `z` first, is looked at from the left.
ASSIGNMENT = [
    (b"y = z", (4, b"a.pony:10:21: name unknown\n")),
]

# A text of this many bytes, in column 21.
TEXTS = [
    (4_096, None),
    (4_097, (8, b"a.pony:10:21: text too long\n")),
]

# A field has the initial value `p`, in column 11 of line 3.
INITIAL = b"class E\n  var f: U64 =\n          p\n"

UNKNOWN = (4, b"a.pony:3:11: name unknown\n")

INITIAL_VALUES = [
    ("of a constructor with such a parameter", INITIAL + b"  new create(p: U64) => p" + AFTER, UNKNOWN),
    ("of a constructor that is added", INITIAL + AFTER, UNKNOWN),
]


def in_column(column, body):
    """A source with this body in a column."""
    return BEFORE + b" " * (column - 1) + body + AFTER


def at(column, bodies):
    """Sources with these bodies in a column, each called by its body."""
    return [(body.decode(), in_column(column, body), fault) for body, fault in bodies]


def text_of(size):
    """A text of this many bytes, as it is written."""
    return b'"' + b"a" * size + b'"'


ROWS = [
    *name_faults("an expression", at(21, EXPRESSIONS)),
    *name_faults("a local", at(17, LOCALS)),
    *name_faults("a local is visible to the end of its sequence", at(16, GROUPS)),
    *name_faults("the left side comes first", at(21, ASSIGNMENT)),
    *name_faults("a text", [(f"of {size} bytes", in_column(21, text_of(size)), fault) for size, fault in TEXTS]),
    *name_faults("no parameter is visible in an initial value", INITIAL_VALUES),
]
