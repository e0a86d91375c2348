"""What is below an interface by its methods."""

from programs import IDLE
from tables import RUN, answers, endings

NAMED = b"interface Named\n  fun name(): String\nclass Dog"

MAIN = b"actor Main\n  new create(env: Env) =>\n    let n: Named = Dog\n"

BELOW = [
    # The class has the method.
    (b"\n  fun name(): String => \"dog\"\n", 0, b""),
    # It returns another entity.
    (b"\n  fun name(): U64 => 1\n", 1, b"a.pony:7:5: no rule\n"),
    # It requires a receiver that may write.
    (b"\n  fun ref name(): String => \"dog\"\n", 1, b"a.pony:7:5: no rule\n"),
    # It takes one more parameter.
    (b"\n  fun name(n: U64): String => \"dog\"\n", 1, b"a.pony:7:5: no rule\n"),
    # It has no such method.
    (b"\n  fun names(): String => \"dog\"\n", 1, b"a.pony:7:5: no rule\n"),
    # It names the interface, but lacks its method.
    (b" is Named\n  fun names(): String => \"dog\"\n", 1, b"a.pony:3:7: method missing\n"),
    # It names the interface, but requires a receiver that may write.
    (b" is Named\n  fun ref name(): String => \"dog\"\n", 1, b"a.pony:4:11: method does not fit\n"),
    (b" is Named\n  fun name(): String => \"dog\"\n", 0, b""),
]

TRAIT = b"""\
trait Named
  fun name(): String
class Dog
  fun name(): String => "dog"
actor Main
  new create(env: Env) =>
    let n: Named = Dog
"""

DECLARED = [
    # Capabilities, behaviours, `is` lists; what is below one trait or interface may be so by a chain.
    (b"interface box A\n  be go()\ninterface B is A\n  fun f()\ntrait C is B\n", 0, b""),
    (b"interface A is B\ninterface B is A\n", 4, b"a.pony:1:11: trait in a cycle\n"),
    (b"interface A\n  var n: U64\n", 3, b"a.pony:2:3: unexpected\n"),
    (b"interface A\n  new create()\n", 3, b"a.pony:2:3: unexpected\n"),
    (b"interface A\n  fun f() => 1\n", 0, b""),
    (b"interface A\nclass C\n  fun f() => A\n", 4, b"a.pony:3:14: name unknown\n"),
]

# A method that is called through the interface.
CALLED = b"""\
interface Named
  fun name(): String
class Dog
  fun name(): String => "dog"
actor Main
  new create(env: Env) =>
    let n: Named = Dog
    env.out.print(n.name())
"""

CALLED_OUT = b"dog\nsteps 26 skipped 0 actors 2 objects 4 waiting 0\n"

ROWS = [
    *endings("a class is below an interface by its methods", BELOW, before=NAMED, after=MAIN),
    *endings("a trait is named", [(TRAIT, 1, b"a.pony:7:5: no rule\n")]),
    *endings("interfaces are where traits do", DECLARED, after=IDLE),
    *answers("a method is called through an interface", RUN, [("it is run", CALLED, b"1*25 0", CALLED_OUT)]),
]
