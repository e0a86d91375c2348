"""Faults of the names of a file's declarations: which fault a file has, and at which name."""

from tables import name_faults

ENTITIES = [
    ("a Main alone", b"actor Main\n  new create(env: Env) => None\n", None),
    (
        "two entities of one name",
        b"class C\n"
        b"trait C\n"
        b"actor Main\n"
        b"  new create(env: Env) => None\n",
        (4, b"a.pony:2:7: name twice\n"),
    ),
    ("an entity of the language", b"class OutStream\n", (4, b"a.pony:1:7: name twice\n")),
    (
        "an unknown name after `is`",
        b"class C is D\n"
        b"actor Main\n"
        b"  new create(env: Env) => None\n",
        (4, b"a.pony:1:12: name unknown\n"),
    ),
    (
        "a class after `is`",
        b"class C is D\n"
        b"class D\n"
        b"actor Main\n"
        b"  new create(env: Env) => None\n",
        (4, b"a.pony:1:12: name unknown\n"),
    ),
    (
        "a trait twice after `is`",
        b"class C is (T & T)\n"
        b"trait T\n"
        b"actor Main\n"
        b"  new create(env: Env) => None\n",
        (4, b"a.pony:1:17: name twice\n"),
    ),
    ("two traits of three in a cycle", b"trait A is B\ntrait B is C\ntrait C is B\n", (4, b"a.pony:2:7: trait in a cycle\n")),
    (
        "a trait that names itself",
        b"trait A is A\n"
        b"actor Main\n"
        b"  new create(env: Env) => None\n",
        (4, b"a.pony:1:7: trait in a cycle\n"),
    ),
    (
        "a trait above another of one list",
        b"trait A is B\n"
        b"trait B\n"
        b"class C is (A & B)\n"
        b"actor Main\n"
        b"  new create(env: Env) => None\n",
        None,
    ),
    (
        "an unknown name comes before a Main of another form",
        b"class Main\n"
        b"  new create(env: Env) => None\n"
        b"class C is D\n",
        (4, b"a.pony:3:12: name unknown\n"),
    ),
]

DECLARATIONS = [
    (
        "a field and a constructor",
        b"class C\n"
        b"  var f: U64\n"
        b"  new make() => None\n"
        b"actor Main\n"
        b"  new create(env: Env) => None\n",
        None,
    ),
    (
        "a field twice, before its unknown type",
        b"class C\n"
        b"  var f: U64\n"
        b"  var f: Zed\n"
        b"actor Main\n"
        b"  new create(env: Env) => None\n",
        (4, b"a.pony:3:7: name twice\n"),
    ),
    (
        "an unknown type of a field",
        b"class C\n"
        b"  var g: Zed\n"
        b"actor Main\n"
        b"  new create(env: Env) => None\n",
        (4, b"a.pony:2:10: name unknown\n"),
    ),
    (
        "a method with the name of a field",
        b"class C\n"
        b"  var f: U64\n"
        b"  fun f() => None\n"
        b"actor Main\n"
        b"  new create(env: Env) => None\n",
        (4, b"a.pony:3:7: name twice\n"),
    ),
    (
        "two methods of one name",
        b"class C\n"
        b"  new make() => None\n"
        b"  fun make() => None\n"
        b"actor Main\n"
        b"  new create(env: Env) => None\n",
        (4, b"a.pony:3:7: name twice\n"),
    ),
    (
        "a parameter with the name of a field",
        b"class C\n"
        b"  var f: U64\n"
        b"  fun g(f: U64) => None\n"
        b"actor Main\n"
        b"  new create(env: Env) => None\n",
        (4, b"a.pony:3:9: name twice\n"),
    ),
    (
        "two parameters of one name",
        b"class C\n"
        b"  fun g(a: U64, a: U64) => None\n"
        b"actor Main\n"
        b"  new create(env: Env) => None\n",
        (4, b"a.pony:2:17: name twice\n"),
    ),
    (
        "a parameter with the name of its method, of an unknown type",
        b"class C\n"
        b"  fun g(g: Zed) => None\n"
        b"actor Main\n"
        b"  new create(env: Env) => None\n",
        (4, b"a.pony:2:12: name unknown\n"),
    ),
    (
        "an unknown result",
        b"class C\n"
        b"  fun g(): Zed => None\n"
        b"actor Main\n"
        b"  new create(env: Env) => None\n",
        (4, b"a.pony:2:12: name unknown\n"),
    ),
    (
        "an added create beside a function create comes before an unknown trait",
        b"class C is D\n"
        b"  fun create() => None\n"
        b"actor Main\n"
        b"  new create(env: Env) => None\n",
        (4, b"a.pony:1:7: name twice\n"),
    ),
    (
        "an added create beside a field create",
        b"actor C\n"
        b"  var create: U64\n"
        b"actor Main\n"
        b"  new create(env: Env) => None\n",
        (4, b"a.pony:1:7: name twice\n"),
    ),
    (
        "a function create beside another constructor",
        b"class C\n"
        b"  fun create() => None\n"
        b"  new make() => None\n"
        b"actor Main\n"
        b"  new create(env: Env) => None\n",
        None,
    ),
    (
        "a function create of a primitive",
        b"primitive C\n"
        b"  fun create() => None\n"
        b"actor Main\n"
        b"  new create(env: Env) => None\n",
        None,
    ),
    (
        "an unknown type comes before a cycle",
        b"trait A is A\n"
        b"primitive C\n"
        b"  fun g(): Zed => None\n",
        (4, b"a.pony:3:12: name unknown\n"),
    ),
    ("types of the file", b"class C\n  fun g(a: C): Main => None\nactor Main\n  new create(env: Env) => None\n", None),
]

MAINS = [
    ("a class", b"class Main\n  new create(env: Env) => None\n", (4, b"a.pony:1:7: Main is of another form\n")),
    ("a trait", b"trait Main\n", (4, b"a.pony:1:7: Main is of another form\n")),
    ("no constructor", b"actor Main\n", (4, b"a.pony:1:7: Main is of another form\n")),
    (
        "a constructor of another name",
        b"actor Main\n"
        b"  new make(env: Env) => None\n",
        (4, b"a.pony:1:7: Main is of another form\n"),
    ),
    (
        "a behaviour create",
        b"actor Main\n"
        b"  new make() => None\n"
        b"  be create(env: Env) => None\n",
        (4, b"a.pony:1:7: Main is of another form\n"),
    ),
    ("an env that is ref", b"actor Main\n  new create(env: Env ref) => None\n", (4, b"a.pony:1:7: Main is of another form\n")),
    ("an env that is val", b"actor Main\n  new create(env: Env val) => None\n", None),
    ("two parameters", b"actor Main\n  new create(env: Env, b: U64) => None\n", (4, b"a.pony:1:7: Main is of another form\n")),
    ("a parameter that is no Env", b"actor Main\n  new create(b: U64) => None\n", (4, b"a.pony:1:7: Main is of another form\n")),
]

ROWS = [
    *name_faults("entities and chains", ENTITIES),
    *name_faults("declarations", DECLARATIONS),
    *name_faults("a Main of some form", MAINS),
]
