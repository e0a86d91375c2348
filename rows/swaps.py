"""`swap` on whole programs: which turns of a schedule are exchanged, and which keep their order."""

from programs import DOUBLES, HELLO, READERS
from steps import Row
from tables import USAGE, answered, named, refused

# Two actors that make an actor each.
PARENTS = b"""\
actor A
actor B
  be make() => A
actor Main
  new create(env: Env) =>
    B().make()
    B().make()
"""

# The place of a turn, a source, its schedule, and what is on out.
SWAPPED = [
    ("the last turn", "10", HELLO, b"1*10 0", b"1*9 0 1\n"),
    ("two turns of one actor", "9", HELLO, b"1*10 0", b"kept: same actor\n"),
    ("a turn that moves nothing", "8", HELLO, b"1*8 0 1", b"kept: not moved\n"),
    # Both read one field, and then both send to the stream.
    ("two that send to the stream", "88", READERS, b"1*43 2*13 3*13 2*9 3*9 2 3", b"1*43 2*13 3*13 2*9 3*10 2\n"),
    ("two of one mailbox", "98", READERS, b"1*43 2*13 3*13 2*14 3*14 2 3", b"kept: one mailbox\n"),
    ("a turn of Main", "43", READERS, b"1*43 2*13 3*13 2*9 3*9 2 3", b"1*42 2 1 2*12 3*13 2*9 3*9 2 3\n"),
    ("two that make an actor", "32", PARENTS, b"1*13 2*9 3*9 2 3", b"kept: both spawn\n"),
    # The step of the second turn would make too long a text.
    ("a step that would make too long a text", "156", DOUBLES, b"1*155 0 1", b"kept: not moved\n"),
]

# The place of a turn, a source, its schedule, and the status and the line on err.
UNSWAPPED = [
    ("place 0", "0", HELLO, b"1*10 0", 2, USAGE),
    ("a sign", "+1", HELLO, b"1*10 0", 2, USAGE),
    ("eight digits", "10000000", HELLO, b"1*10 0", 2, USAGE),
    # The word comes before the source, and the schedule's length before the run.
    ("the word comes before the source", "one", b"", b"x", 2, USAGE),
    ("no tree", "1", b"", b"x", 3, b"a.pony:1:1: unexpected\n"),
    ("a bad word", "1", HELLO, b"1*8 x", 7, b"a.sched:1:5: bad word\n"),
    ("the last place", "10", HELLO, b"1*8 0 1", 15, b"a.sched: no place 10\n"),
    (
        "a place past the schedule, which comes before the run",
        "0001010",
        DOUBLES,
        b"1*9 0 1*1000",
        15,
        b"a.sched: no place 1010\n",
    ),
    ("a run that ends before", "200", DOUBLES, b"1*9 0 1*1000", 12, b"a.sched: text too long at step 157\n"),
]


def words(place):
    """The words that ask for the turn at a place."""
    return ("swap", "a.pony", "a.sched", place)


ROWS = [
    *(
        Row(named("turns are exchanged or stay", name), (answered(words(place), source, schedule, out),))
        for name, place, source, schedule, out in SWAPPED
    ),
    *(
        Row(named("exchanges are refused", name), (refused(words(place), source, schedule, status, err),))
        for name, place, source, schedule, status, err in UNSWAPPED
    ),
]
