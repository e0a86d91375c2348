"""`upgrade`: a derivation rewritten in version 2 of its text, and what is refused."""

import texts
from derivations import OF_BANK, OF_CHAIN, OF_HELLO, OF_TAKEN
from programs import BANK, CHAIN, FIRST, HELLO, ONE_OBJECT, SECOND
from steps import ANY, Row
from tables import CHECK, JUDGE, UPGRADE, USAGE, answered, answers, named, out_before, refusals, spoken

# The derivation of ONE_OBJECT with a version that does not exist.
THIRD = texts.changed(SECOND, b"rcap-derivation 2 ", b"rcap-derivation 3 ")

# The same in version 2, except for the type of `env`.
WRONG_SLOT = texts.changed(SECOND, b"s 4 val\n", b"s 4 box\n")

# The masks of version 1 after the first line of version 2.
WRONG_NODE = texts.changed(FIRST, b"rcap-derivation 1 ", b"rcap-derivation 2 ")

# The bodies of a trait in a class and in an actor, with their own fields and methods.
TAKEN = b"""\
trait tag Names
  fun name(): String => _name + of()
class C is Names
  let _name: String = "c"
  fun of(): String => ""
actor Main is Names
  let _name: String = "main"
  new create(env: Env) => env.out.print(C().name() + name())
  fun of(): String => " of all"
"""

# A constructor that sets no field, and its derivation, in which each node meets its rule.
UNSET = b"""\
class C
  let f: U64
  new create() => None
actor Main
  new create(env: Env) => None
"""

UNSET_FIRST = b"""\
rcap-derivation 1 3 6
s 6 ref
s 7 ref
s 4 val
n prim 0 val 1 0 1 0
n seq 0 val 1 0 1 0
n body - 1 0 1 0
n prim 0 val 3 0 3 0
n seq 0 val 3 0 3 0
n body - 3 0 3 0
"""

# A behaviour that takes what may not be sent.
UNSENDABLE = b"""\
class C
actor A
  be take(c: C ref) => None
actor Main
  new create(env: Env) => None
"""

REWRITTEN = [
    ("version 1", ONE_OBJECT, FIRST, SECOND),
    ("version 2", ONE_OBJECT, SECOND, SECOND),
]

# Sources, and their derivations in version 2.
DERIVED = [
    ("a greeting", HELLO, OF_HELLO),
    ("a chain", CHAIN, OF_CHAIN),
    ("a bank", BANK, OF_BANK),
    ("bodies that are taken over", TAKEN, OF_TAKEN),
]

SOURCES = [
    ("a bad byte", b"class C $", b"", 3, b"a.pony:1:9: bad byte\n"),
    ("no tree", b"class", b"", 3, b"a.pony:1:6: unexpected\n"),
    ("no Main", b"class C\n", b"", 4, b"a.pony: no Main\n"),
    ("an unknown name", b"actor Main\n  new create(env: Env) => a\n", b"", 4, b"a.pony:2:27: name unknown\n"),
    (
        "an unknown name in a trait",
        b"trait T\n  fun f() => a\nclass C is T\nactor Main\n  new create(env: Env) => None\n",
        b"",
        4,
        b"a.pony:2:14: name unknown\n",
    ),
    # A declaration is looked at together with the annotation.
    ("a declaration is looked at with the annotation", UNSENDABLE, b"", 5, b"a.der:1: bad line\n"),
]

TEXTS = [
    ("no bytes", ONE_OBJECT, b"", 5, b"a.der:1: bad line\n"),
    ("version 3", ONE_OBJECT, THIRD, 5, b"a.der:1: bad line\n"),
    ("a version that begins with 0", ONE_OBJECT, b"rcap-derivation 02 4 7\n", 5, b"a.der:1: bad line\n"),
    ("version 3 with too many slots", ONE_OBJECT, b"rcap-derivation 3 640001 0\n", 5, b"a.der:1: bad line\n"),
    ("one line of two", ONE_OBJECT, b"rcap-derivation 2 2 0\ns 6 ref\n", 5, b"a.der:3: bad line\n"),
    ("too many slots", ONE_OBJECT, b"rcap-derivation 2 640001 0\n", 8, b"a.der: too many lines\n"),
    ("too many nodes", ONE_OBJECT, b"rcap-derivation 1 0 200001\n", 8, b"a.der: too many lines\n"),
]

NOT_VALID = [
    ("no lines", ONE_OBJECT, b"rcap-derivation 2 0 0\n", 6, b"a.der: shape\n"),
    ("another type of a slot", ONE_OBJECT, WRONG_SLOT, 6, b"a.der: slot 2\n"),
    ("masks of version 1", ONE_OBJECT, WRONG_NODE, 6, b"a.der: node 0\n"),
    ("a field that is not set", UNSET, UNSET_FIRST, 6, b"a.der: unset in method 1\n"),
    ("a parameter that may not be sent", UNSENDABLE, b"rcap-derivation 1 0 0\n", 6, b"a.pony:3:11: parameter not sendable\n"),
]

WORDS = [
    (["upgrade"], 2, USAGE),
    (["upgrade", "a.pony"], 2, USAGE),
    (["upgrade", "a.pony", "a.der", "b"], 2, USAGE),
    (["upgrade", "gone.pony", "a.der"], 9, b"gone.pony: cannot be read\n"),
    (["upgrade", "a.pony", "gone.der"], 9, b"gone.der: cannot be read\n"),
]

LONG_SOURCE = [("a source of 1048577 bytes", texts.spaces(1_048_577), FIRST, 8, b"a.pony: longer than 1048576 bytes\n")]

LONG_DERIVATIONS = [
    ("a derivation of 33554432 bytes", ONE_OBJECT, texts.spaces(33_554_432), 5, b"a.der:1: bad line\n"),
    ("a derivation of 33554433 bytes", ONE_OBJECT, texts.spaces(33_554_433), 8, b"a.der: longer than 33554432 bytes\n"),
]


def stays(name, source, second):
    """What `check` writes is rewritten as this text, which is rewritten as itself and accepted."""
    steps = (
        answered(CHECK, source, b"", ANY),
        answered(UPGRADE, source, out_before, second),
        answered(UPGRADE, source, second, second),
        answered(JUDGE, source, second, b"accepted\n"),
    )
    return Row(named("what is written is accepted and stays", name), steps)


def both(title, rows):
    """`judge` and `upgrade` both refuse each of these texts."""
    return [*refusals(f"{title} (judge)", JUDGE, rows), *refusals(f"{title} (upgrade)", UPGRADE, rows)]


ROWS = [
    *answers("a derivation is written in version 2", UPGRADE, REWRITTEN),
    *answers("a derivation in version 2 is judged", JUDGE, [("that of one object", ONE_OBJECT, SECOND, b"accepted\n")]),
    *(stays(*row) for row in DERIVED),
    *both("a source is refused before a derivation", SOURCES),
    *both("a text of a derivation is refused", TEXTS),
    *both("what is not valid is not written", NOT_VALID),
    *spoken("words name upgrade", ONE_OBJECT, WORDS),
    *both("files may have 1048576 and 33554432 bytes", LONG_SOURCE),
    *refusals("files may have 1048576 and 33554432 bytes", UPGRADE, LONG_DERIVATIONS),
]
