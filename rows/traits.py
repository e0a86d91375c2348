"""Bodies in traits and interfaces."""

from programs import IDLE
from tables import RUN, answers, endings, refusals

# A body that a class takes over.
GREETS = b"""\
trait Greets
  fun word(): String => "hello"
class A is Greets
actor Main
  new create(env: Env) => env.out.print(A().word())
"""

# The same with a name that the class does not have. The name is looked up in the class, and is written in the trait.
UNKNOWN = b"""\
trait Greets
  fun word(): String => _w
class A is Greets
actor Main
  new create(env: Env) => env.out.print(A().word())
"""

BODIES = [
    # Nothing takes over a body with an unknown name, or with another type than the result.
    (b"trait T\n  fun f() => zz\n", 0, b""),
    (b"interface I\n  fun f(): U64 => true\n", 0, b""),
    # A class takes it over.
    (b"trait T\n  fun f(): U64 => true\nclass C is T\n", 1, b"a.pony:2:7: no rule\n"),
    # The body uses a field that the trait knows nothing about.
    (b"trait T\n  fun f(): U64 => n\nclass C is T\n  let n: U64 = 1\n", 0, b""),
    # A method without a body must be written in the class, and a body can stand for one.
    (b"trait T\n  fun f(): U64\nclass C is T\n", 1, b"a.pony:3:7: method missing\n"),
    (b"trait T\n  fun f(): U64\ntrait S\n  fun f(): U64 => 1\nclass C is (T & S)\n", 0, b""),
    # A behaviour with a body can be in an actor, but not in a class.
    (b"trait tag T\n  be b() => None\nactor A is T\n", 0, b""),
    (b"trait T\n  be b() => None\nclass C is T\n", 1, b"a.pony:3:7: method missing\n"),
]

GREETED = b"hello\nsteps 22 skipped 0 actors 2 objects 4 waiting 0\n"

ROWS = [
    *answers("a class runs the body of a trait", RUN, [("it is run", GREETS, b"1*21 0", GREETED)]),
    *refusals("a class runs the body of a trait", RUN, [("a name that it lacks", UNKNOWN, b"1*21 0", 4, b"a.pony:2:25: name unknown\n")]),
    *endings("bodies of traits are checked where they are taken over", BODIES, after=IDLE),
]
