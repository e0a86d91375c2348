"""Files at the limits of their names, long chains of traits, and a long sequence."""

import cores
import texts
from programs import IDLE
from steps import Row, Step
from tables import PLACES, files, name_faults

METHODS = [
    ("10000 with those of traits", texts.methods_above(7_998, IDLE), None),
    ("10001 with those of traits", texts.methods_above(7_999, IDLE), (8, b"a.pony:1006:11: too many methods\n")),
    ("10000 with those that are taken over", texts.methods_taken_over(7_998, IDLE), None),
    ("10001 with those that are taken over", texts.methods_taken_over(7_999, IDLE), (8, b"a.pony:9004:7: too many methods\n")),
]

LONG_NAMES = [
    ("they differ in their last byte", texts.classes_with_names(200_000, 199_999, IDLE), None),
    ("they are the same", texts.classes_with_names(200_000, 200_000, IDLE), (4, b"a.pony:2:7: name twice\n")),
]

CHAINS = [
    ("999 traits", IDLE + texts.chain(999), None),
    ("1000 traits", IDLE + texts.chain(1_000), (8, b"a.pony:1002:7: too many entities\n")),
    ("999 traits in a cycle", IDLE + texts.chain(999, closed=True), (4, b"a.pony:3:7: trait in a cycle\n")),
    ("200 traits with 10 methods each", IDLE + texts.chain(200, methods=10), None),
]

# The last trait of a chain has a method `m`, which all above it in the text take over.
METHOD = b"  fun m()\n"

SHORT = {0: (5, 0, "be", 0), 1: (6, 17, "spawn", 2), 2: (7, 97, "fun", 1), 4: (9, 97, "fun", 1)}

LAST = {1_000: (1_005, 19_021, "fun", 1)}

# A Main whose body has one item more than this.
ITEMS = 99_994

SEQUENCE = b"actor Main\n  new create(env: Env) => 1" + b";1" * ITEMS + b"\n"


def told(name, source, form):
    """What `places` says of a source."""
    return Row(name, (Step(PLACES, files(source), 0, form),))


ROWS = [
    *name_faults("methods at their limit", METHODS),
    *name_faults("two long names", LONG_NAMES),
    *name_faults("a chain of traits", CHAINS),
    told("methods along a chain of three traits", IDLE + texts.chain(3) + METHOD, cores.both(cores.methods_at(5, SHORT), cores.counts(10, 3))),
    told("methods along a chain of all traits", IDLE + texts.chain(999) + METHOD, cores.methods_at(1_001, LAST)),
    told("a long sequence has all its items", SEQUENCE, cores.items_at(ITEMS + 1, ITEMS + 1)),
]
