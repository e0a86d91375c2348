"""`run` on whole programs: what is written under which schedule, and what is refused."""

from programs import BANK, CHAIN, DOUBLES, HELLO, NUMBERS, READERS, UNSENDABLE
from tables import RUN, answers, cut, long, named, refusals

TRUTHS = b"""\
actor Main
  new create(env: Env) =>
    env.out.print(true.string())
    env.out.print(false.string())
"""

# A primitive and an object, each called by its name alone.
APPLIED = b"""\
primitive P
  fun apply(n: U64): U64 => n + 1
class C
  fun apply(): String => "c"
actor Main
  new create(env: Env) =>
    let c: C = C
    env.out.print(c())
    env.out.print(P(1).string())
"""

# An entity that takes over a body runs it with its own names. Main takes 75 steps: 3 before the items, 35 for each of the two calls,
# one between them, and the return. Of a call's 35 steps 11 make the object and 17 are the body's.
OWN_NAMES = b"""\
trait Counts
  fun word(): String => _name + size().string()
class A is Counts
  let _name: String = "a"
  fun size(): U64 => 1
class B is Counts
  let _name: String = "b"
  fun size(): U64 => 2
actor Main
  new create(env: Env) =>
    env.out.print(A().word())
    env.out.print(B().word())
"""

# Main takes 23 steps, and each of the others 8 for its constructor and 16 for the behaviour.
TOLD = b"""\
trait tag Tells
  be tell() => _out.print(name())
actor A is Tells
  let _out: OutStream
  new create(out: OutStream) => _out = out
  fun name(): String => "a"
actor B is Tells
  let _out: OutStream
  new create(out: OutStream) => _out = out
  fun name(): String => "b"
actor Main
  new create(env: Env) =>
    A(env.out).tell()
    let b: Tells = B(env.out)
    b.tell()
"""

# An own method comes before the body of an interface. Main takes 60 steps: 8 for each of the two locals, 12 for each of the three
# calls, one between two items, 3 before them, and the return.
OF_AN_INTERFACE = b"""\
interface Speaks
  fun word(): String => "one"
class A is Speaks
class B is Speaks
  fun word(): String => "other"
primitive P is Speaks
actor Main
  new create(env: Env) =>
    let a: Speaks = A
    let b: Speaks = B
    env.out.print(a.word())
    env.out.print(b.word())
    env.out.print(P.word())
"""

COUNTS = b"""\
actor Main
  new create(env: Env) =>
    while true do env.out.print("") end
"""

# After four steps, each round of the loop takes 12, and the tenth of them sends: in 900,000 turns that is 74,999 texts, each of
# which is a turn of the stream and a line.
COUNTED = b"\n" * 74_999 + b"steps 974999 skipped 25001 actors 2 objects 3 waiting 0\n"

RUNS = [
    ("a greeting", HELLO, b"1*10 0", b"hi\nsteps 11 skipped 0 actors 2 objects 3 waiting 0\n"),
    ("no turns", HELLO, b"", b"steps 0 skipped 0 actors 2 objects 3 waiting 1\n"),
    # No other actor takes the turn of one that does not exist.
    ("turns of an actor that is not there", HELLO, b"7*5", b"steps 0 skipped 5 actors 2 objects 3 waiting 1\n"),
    ("a chain", CHAIN, b"1*53 2*52 0", b"3\nsteps 106 skipped 0 actors 3 objects 7 waiting 0\n"),
    (
        "two readers",
        READERS,
        b"1*43 2*13 3*13 2*9 3*9 2 3 2*6 3*6 0*2",
        b"5\n5\nsteps 103 skipped 0 actors 4 objects 6 waiting 0\n",
    ),
    ("numbers that wrap", NUMBERS, b"1*100 0*3", b"9\n0\n0\nsteps 49 skipped 54 actors 2 objects 3 waiting 0\n"),
    (
        "a bank",
        BANK,
        b"1*200 2*300 3*300 0*10",
        b"ann: 70\nrefused 500\nbob: 0\nsteps 296 skipped 514 actors 4 objects 7 waiting 0\n",
    ),
    ("truth values", TRUTHS, b"1*21 0*2", b"true\nfalse\nsteps 23 skipped 0 actors 2 objects 3 waiting 0\n"),
    ("calls by a name alone", APPLIED, b"1*44 0*2", b"c\n2\nsteps 46 skipped 0 actors 2 objects 4 waiting 0\n"),
    ("the names in a body are those of the class", OWN_NAMES, b"1*75 0*2", b"a1\nb2\nsteps 77 skipped 0 actors 2 objects 5 waiting 0\n"),
    ("each actor has the behaviour", TOLD, b"1*23 2*24 3*24 0*2", b"a\nb\nsteps 73 skipped 0 actors 4 objects 5 waiting 0\n"),
    ("an own method", OF_AN_INTERFACE, b"1*60 0*3", b"one\nother\none\nsteps 63 skipped 0 actors 2 objects 5 waiting 0\n"),
]

LONG_RUNS = [("a million turns", COUNTS, b"1*900000 0*100000", COUNTED)]

NUMBER = b"""\
actor A
  be take(n: U64) => None
actor Main
  new create(env: Env) => A
"""

REFUSED = [
    ("a bad word", HELLO, b"7 1*0 x", 7, b"a.sched:1:7: bad word\n"),
    ("too many turns", HELLO, b"1*999999\n0 1\n2", 8, b"a.sched:2:3: too many steps\n"),
    # The source is refused first, and its core before the schedule.
    ("a source without a tree", b"", b"x", 3, b"a.pony:1:1: unexpected\n"),
    ("a core comes before a schedule", NUMBER, b"x", 7, b"a.sched:1:1: bad word\n"),
    ("a parameter that may not be sent", UNSENDABLE, b"x", 1, b"a.pony:3:11: parameter not sendable\n"),
]

# In DOUBLES the first join is Main's 24th step, a round of its loop takes 12 steps, and the 12th join is too long. Before it the
# stream has its one step. Steps that are skipped count.
TOO_LONG = [
    ("alone", b"1*9 0 1*1000", b"a.sched: text too long at step 157\n"),
    ("after turns that are skipped", b"7*3 1*9 0 1*1000", b"a.sched: text too long at step 160\n"),
]

ROWS = [
    *answers("a run writes its text", RUN, RUNS),
    *long(answers("a run writes its text", RUN, LONG_RUNS)),
    *refusals("a run is refused", RUN, REFUSED),
    *(cut(named("a run ends at a text that is too long", name), RUN, DOUBLES, turns, 12, b"go\n", err) for name, turns, err in TOO_LONG),
]
