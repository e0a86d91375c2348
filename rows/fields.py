"""Fields: what may be written, what a write returns, and that all are set."""

from tables import endings

FIELDS = [
    # An alias of a `trn` is not written into a `trn`.
    (
        b"class B\n"
        b"class T\n"
        b"  var b: B box = B\n"
        b"actor Main\n"
        b"  new create(env: Env) =>\n"
        b"    let t1: T trn = T\n"
        b"    let t2: B trn = B\n"
        b"    t1.b = t2\n",
        1,
        b"a.pony:8:5: no rule\n",
    ),
    # The old value of a `trn` field of a `trn` is only a `box`.
    (
        b"class B\n"
        b"class T\n"
        b"  var c: B trn = B\n"
        b"actor Main\n"
        b"  new create(env: Env) =>\n"
        b"    let t: T trn = T\n"
        b"    let u: B trn = t.c = B\n",
        1,
        b"a.pony:7:5: no rule\n",
    ),
]

OPTIONAL = b"class C\n  var n: U64\n  new create(b: Bool) =>\n"

MADE = b"actor Main\n  new create(env: Env) => C(true)\n"

# A field that one branch leaves unset.
BRANCHES = [
    (b"    if b then n = 1 end\n", 1, b"a.pony:3:7: field not set\n"),
    (b"    if b then n = 1 else n = 2 end\n", 0, b""),
]

ROWS = [
    *endings("fields are accepted or refused", FIELDS),
    *endings("a field is set on every path", BRANCHES, before=OPTIONAL, after=MADE),
]
