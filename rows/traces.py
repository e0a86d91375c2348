"""`trace` on whole programs: the accesses of a run, each with its clock."""

from programs import CROWD, DOUBLES, HELLO
from tables import USAGE, answers, refusals, spoken

TRACE = ("trace", "a.pony", "a.sched")

# Two actors would write the same field if the source were accepted.
SHARED = b"""\
class C
  var n: U64 = 0
actor R
  new create(c: C ref) => c.n = 1
actor Main
  new create(env: Env) =>
    let c: C ref = C
    R(c)
    R(c)
"""

# A constructor that writes two fields, the second of which is read.
WRITES = b"""\
class C
  let a: U64 = 1
  var n: U64
  new create(m: U64) => n = m
actor Main
  new create(env: Env) =>
    let c: C = C(7)
    env.out.print(c.n.string())
"""

WRITES_TOLD = b"""\
13 1 write 1.1 0 clock 0,13
18 1 write 1.1 1 clock 0,18
26 1 read 1.1 1 clock 0,26
30 1 read 0.1 0 clock 0,30
accesses 4 ordered
"""

# After eight steps, each round of the loop takes 18, and the ninth of them makes an actor. There are two at the start, so the 63rd
# round would make the 65th.
MANY = b"""\
actor R
  new create() => None
actor Main
  new create(env: Env) =>
    var n: U64 = 0
    while n < 100 do
      R
      n = n + 1
    end
"""

TRACED = [
    ("a field that is read", HELLO, b"1*10 0", b"8 1 read 0.1 0 clock 0,8\naccesses 1 ordered\n"),
    ("no turns", HELLO, b"", b"accesses 0 ordered\n"),
    # Steps that are skipped have no access, and count in no clock.
    ("turns that are skipped", HELLO, b"7*2 1*10 0", b"10 1 read 0.1 0 clock 0,8\naccesses 1 ordered\n"),
    ("64 actors", CROWD, b"1*505", b"accesses 0 ordered\n"),
    ("64 actors that a loop makes", MANY, b"1*1132", b"accesses 0 ordered\n"),
    ("a constructor that writes", WRITES, b"1*32", WRITES_TOLD),
]

REFUSED = [
    ("no tree", b"", b"x", 3, b"a.pony:1:1: unexpected\n"),
    ("no Main", b"class C\n", b"x", 4, b"a.pony: no Main\n"),
    ("two actors that share an object", SHARED, b"1*25 2*8 3*8", 1, b"a.pony:4:14: parameter not sendable\n"),
    ("a bad word", HELLO, b"1*8 x", 7, b"a.sched:1:5: bad word\n"),
    ("65 actors", CROWD, b"1*506 1", 8, b"a.sched: too many actors at step 506\n"),
    ("65 actors that a loop makes", MANY, b"1*2000", 8, b"a.sched: too many actors at step 1133\n"),
    ("a text that is too long", DOUBLES, b"1*9 0 1*1000", 12, b"a.sched: text too long at step 157\n"),
]

ROWS = [
    *answers("accesses are reported with their clocks", TRACE, TRACED),
    *spoken("a trace is refused", HELLO, [(("trace", "a.pony"), 2, USAGE)]),
    *refusals("a trace is refused", TRACE, REFUSED),
]
