"""Sources whose names are at fault, or that pass a limit of names."""

from programs import IDLE
from tables import endings

DECLARATIONS = [
    (b"class C\n", 4, b"a.pony: no Main\n"),
    (b"class C\nclass C\n", 4, b"a.pony:2:7: name twice\n"),
    (b"class String\n", 4, b"a.pony:1:7: name twice\n"),
    (b"actor Main\n  new create() => None\n", 4, b"a.pony:1:7: Main is of another form\n"),
    (b"trait Main\n", 4, b"a.pony:1:7: Main is of another form\n"),
    (b"class C\n  let f: U64\n  let f: U64\n", 4, b"a.pony:3:7: name twice\n"),
    (b"class C\n  fun f(a: U64, a: U64) => None\n", 4, b"a.pony:2:17: name twice\n"),
    (b"class C is D\nclass D\n", 4, b"a.pony:1:12: name unknown\n"),
    (b"class C\n  fun f(): Zed => None\n", 4, b"a.pony:2:12: name unknown\n"),
    (b"class C\n  var create: U64 = 1\n", 4, b"a.pony:1:7: name twice\n"),
    (b"class C\n  fun f() => let x: Zed = 1\n", 4, b"a.pony: no Main\n"),
    (
        b"trait A is B\ntrait B is A\nactor Main\n  new create(env: Env) =>\n    env.out.print(\"hi\")\n",
        4,
        b"a.pony:1:7: trait in a cycle\n",
    ),
]

FUN = b"class C\n  fun "

BEHIND = b"""\

class D
  new make() => None
actor Main
  new create(env: Env) => None
"""

BODIES = [
    (b"f() => yy", 4, b"a.pony:2:14: name unknown\n"),
    (b"f() => consume yy", 4, b"a.pony:2:22: name unknown\n"),
    (b"f() => let x: Zed = 1", 4, b"a.pony:2:21: name unknown\n"),
    (b"f() => Zed", 4, b"a.pony:2:14: name unknown\n"),
    (b"f() => U64", 4, b"a.pony:2:14: name unknown\n"),
    (b"f() => C.zz(yy)", 4, b"a.pony:2:16: name unknown\n"),
    (b"f() => C.create", 4, b"a.pony:2:16: name unknown\n"),
    (b"f() => C.create\n    (1)", 4, b"a.pony:2:16: name unknown\n"),
    (b"f() => f", 4, b"a.pony:2:14: name unknown\n"),
    (b"f() => D", 4, b"a.pony:2:14: name unknown\n"),
    (b"f(a: U64) => let a: U64 = 1", 4, b"a.pony:2:24: name twice\n"),
    (b"g() => let f: U64 = 1; f = yy", 4, b"a.pony:2:34: name unknown\n"),
    (b"f() => yy = zz", 4, b"a.pony:2:14: name unknown\n"),
    (b"f() => if true then let a: U64 = 1 end; a", 4, b"a.pony:2:47: name unknown\n"),
    (b"f() => let a: U64 = a", 4, b"a.pony:2:27: name unknown\n"),
]

OTHERS = [
    (b"class C\n  var f: U64 = yy\n  fun g() => zz\n  new create() => None\n", 4, b"a.pony:3:14: name unknown\n"),
    (b"class C\n  var f: U64\n  new create() =>\n    let f: U64 = 1\n", 4, b"a.pony:4:9: name twice\n"),
    (b"class C\n  var f: U64 = a\n  new create(a: U64) => None\n", 4, b"a.pony:2:16: name unknown\n"),
    (b"trait T\nclass C\n  fun f() => T\n", 4, b"a.pony:3:14: name unknown\n"),
]

TEXT = b"actor Main\n  new create(env: Env) =>\n    env.out.print(text)\n"

ROWS = [
    *endings("faults of declarations are named", DECLARATIONS),
    *endings("faults of bodies are named", BODIES, before=FUN, after=BEHIND),
    *endings("faults of bodies are named", OTHERS, after=IDLE),
    *endings("faults of bodies are named", [(TEXT, 4, b"a.pony:3:19: name unknown\n")]),
]
