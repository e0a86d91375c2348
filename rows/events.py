"""`events` on whole programs: what a run takes, sends, makes, reads and writes, each with its clock."""

from programs import CROWD, DOUBLES, HELLO
from tables import USAGE, answers, refusals, spoken

EVENTS = ("events", "a.pony", "a.sched")

# An actor that is made with an object, and is then sent a message.
KEEPER = b"""\
class Cell
  var n: U64 = 0
actor Keeper
  var _cell: Cell iso
  new create(cell: Cell iso) => _cell = consume cell
  be bump() => _cell.n = 1
actor Main
  new create(env: Env) =>
    Keeper(Cell).bump()
"""

KEEPER_TOLD = b"""\
1 1 take Main.create 0 clock 0,1
7 1 new 1.1 Cell clock 0,7
13 1 write 1.1 0 clock 0,13
17 1 make 2 Keeper.create clock 0,17
18 1 send 2 Keeper.bump clock 0,18,0
41 2 take Keeper.create 17 clock 0,17,1
47 2 write 2.0 0 clock 0,17,7
49 2 take Keeper.bump 18 clock 0,18,9
56 2 read 2.0 0 clock 0,18,16
57 2 write 1.1 0 clock 0,18,17
events 10 accesses 4 ordered
"""

HELLO_TOLD = b"""\
1 1 take Main.create 0 clock 0,1
8 1 read 0.1 0 clock 0,8
9 1 send 0 OutStream.print clock 0,9
11 0 take OutStream.print 9 clock 1,9
events 4 accesses 1 ordered
"""

LATER_TOLD = b"""\
3 1 take Main.create 0 clock 0,1
10 1 read 0.1 0 clock 0,8
11 1 send 0 OutStream.print clock 0,9
13 0 take OutStream.print 11 clock 1,9
events 4 accesses 1 ordered
"""

RUNS = [
    ("an actor that is made with an object", KEEPER, b"1*40 2*40", KEEPER_TOLD),
    ("a greeting", HELLO, b"1*10 0", HELLO_TOLD),
    # Steps that are skipped have no line, and count in no clock.
    ("turns that are skipped", HELLO, b"7*2 1*10 0", LATER_TOLD),
    # What was sent and not taken only has the line of its sending.
    (
        "a message that is not taken",
        HELLO,
        b"1*9",
        b"1 1 take Main.create 0 clock 0,1\n"
        b"8 1 read 0.1 0 clock 0,8\n"
        b"9 1 send 0 OutStream.print clock 0,9\n"
        b"events 3 accesses 1 ordered\n",
    ),
    ("no turns", HELLO, b"", b"events 0 accesses 0 ordered\n"),
]

REFUSED = [
    ("no tree", b"", b"x", 3, b"a.pony:1:1: unexpected\n"),
    ("no Main", b"class C\n", b"x", 4, b"a.pony: no Main\n"),
    ("a bad word", HELLO, b"1*8 x", 7, b"a.sched:1:5: bad word\n"),
    ("65 actors", CROWD, b"1*506 1", 8, b"a.sched: too many actors at step 506\n"),
    ("a text that is too long", DOUBLES, b"1*9 0 1*1000", 12, b"a.sched: text too long at step 157\n"),
]

ROWS = [
    *answers("events are reported with their clocks", EVENTS, RUNS),
    *spoken("a run without events is refused", HELLO, [(("events", "a.pony"), 2, USAGE)]),
    *refusals("a run without events is refused", EVENTS, REFUSED),
]
