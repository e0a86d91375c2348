"""Bodies in traits: which entity takes them over, and what their names mean there."""

import cores
from steps import Row, Step
from tables import PLACES, files, name_faults, named

# A file, and the methods of its core after that of the language: of each its entity, where its name starts, and whether it has a
# body.
TAKEN = [
    (
        "bodies along a chain",
        b"trait T\n"
        b"  fun m(): U64 => 1\n"
        b"trait S is T\n"
        b"  fun k(): U64 => m()\n"
        b"class C is S\n"
        b"actor Main\n"
        b"  new create(env: Env) => None\n",
        [(6, 14, False), (7, 47, False), (7, 14, False), (8, 69, True), (8, 47, True), (8, 14, True), (9, 93, True)],
    ),
    (
        "the first body of a name",
        b"trait T\n"
        b"  fun m(): U64\n"
        b"trait S\n"
        b"  fun m(): U64 => 2\n"
        b"trait B is (T & S)\n"
        b"class C is (T & S)\n"
        b"class D is B\n"
        b"actor Main\n"
        b"  new create(env: Env) => None\n",
        [(6, 14, False), (7, 37, False), (8, 14, False), (9, 76, True), (9, 37, True), (10, 95, True), (11, 119, True)],
    ),
    (
        "a behaviour, by an actor alone",
        b"trait T\n"
        b"  be b() => None\n"
        b"  fun f() => None\n"
        b"class C is T\n"
        b"actor A is T\n"
        b"primitive P is T\n"
        b"actor Main\n"
        b"  new create(env: Env) => None\n",
        [(6, 13, False), (6, 31, False), (7, 49, True), (7, 31, True), (8, 62, True), (8, 13, True), (8, 31, True), (9, 31, True), (10, 103, True)],
    ),
    (
        "a field has the name",
        b"trait T\n"
        b"  fun f(): U64 => 1\n"
        b"  fun g(): U64 => 2\n"
        b"class C is T\n"
        b"  var f: U64 = 3\n"
        b"actor Main\n"
        b"  new create(env: Env) => None\n",
        [(6, 14, False), (6, 34, False), (7, 54, True), (7, 34, True), (8, 95, True)],
    ),
    (
        "a method of the class has the name",
        b"trait T\n"
        b"  fun m(): U64 => 1\n"
        b"class C is T\n"
        b"  fun m(): U64 => 2\n"
        b"actor Main\n"
        b"  new create(env: Env) => None\n",
        [(6, 14, False), (7, 47, True), (7, 34, True), (8, 78, True)],
    ),
    (
        "an added constructor has the name, and a primitive has none",
        b"trait T\n"
        b"  fun create(): U64 => 1\n"
        b"class C is T\n"
        b"primitive P is T\n"
        b"actor Main\n"
        b"  new create(env: Env) => None\n",
        [(6, 14, False), (7, 39, True), (8, 14, True), (9, 80, True)],
    ),
]

# What a body along a chain of traits is made of.
CHAIN_NODES = cores.counts(10, 13)

# A parameter with the name of a field of a class that takes over its method: node 6 is the parameter, local 1 of method 3.
PARAMETER = b"""\
trait T
  fun get(f: U64): U64 => f
class C is T
  var f: U64 = 3
actor Main
  new create(env: Env) => None
"""

# In a method of the class itself, it is a fault.
OWN_PARAMETER = b"""\
class C
  var f: U64 = 3
  fun get(f: U64): U64 => f
actor Main
  new create(env: Env) => None
"""

LOOKED_AT = [
    (
        "nothing takes it over",
        b"trait T\n"
        b"  fun m(): U64 => zz\n"
        b"actor Main\n"
        b"  new create(env: Env) => None\n",
        None,
    ),
    (
        "a class lacks what it names",
        b"trait T\n"
        b"  fun m(): U64 => zz\n"
        b"class C is T\n"
        b"actor Main\n"
        b"  new create(env: Env) => None\n",
        (4, b"a.pony:2:19: name unknown\n"),
    ),
    (
        "a class has what it names",
        b"trait T\n"
        b"  fun m(): U64 => zz\n"
        b"class C is T\n"
        b"  let zz: U64 = 1\n"
        b"actor Main\n"
        b"  new create(env: Env) => None\n",
        None,
    ),
    (
        "one class has what it names, and another lacks it",
        b"trait T\n"
        b"  fun m(): U64 => zz\n"
        b"class C is T\n"
        b"  let zz: U64 = 1\n"
        b"class D is T\n"
        b"actor Main\n"
        b"  new create(env: Env) => None\n",
        (4, b"a.pony:2:19: name unknown\n"),
    ),
]


def told(name, source, form):
    """What `places` says of a source."""
    return Row(named("what is taken over", name), (Step(PLACES, files(source), 0, form),))


ROWS = [
    *(told(name, source, cores.methods(methods)) for name, source, methods in TAKEN),
    told("the nodes of bodies along a chain", TAKEN[0][1], CHAIN_NODES),
    told("a parameter comes before a field of its name", PARAMETER, cores.node_at(6, "local:1", 3, 34)),
    *name_faults("a parameter with the name of a field", [("of the class itself", OWN_PARAMETER, (4, b"a.pony:3:11: name twice\n"))]),
    *name_faults("a body is looked at where it is taken over", LOOKED_AT),
]
