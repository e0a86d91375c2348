"""`sends` on whole programs: who sends what, and what is never sent."""

from programs import BANK, HELLO
from tables import USAGE, answers, refusals, spoken

SENDS = ("sends", "a.pony")

# An actor with a behaviour that nothing sends.
STOPS = b"""\
actor A
  be go() => None
  be stop() => None
actor Main
  new create(env: Env) => A().go()
"""

# A call on an interface, and one on a trait: it may reach whatever conforms to them by its methods, whether it names the trait or
# not.
SHAPES = b"""\
interface tag Runs
  be go()
trait tag Stops
  be stop()
actor A is Stops
  be go() => None
  be stop() => None
actor B
  be stop() => None
actor Main
  new create(env: Env) =>
    let a: A = A
    let runs: Runs = a
    let stops: Stops = a
    runs.go()
    stops.stop()
  new other() => None
"""

# A function that sends, of a class that is instantiated; and another of one that is not.
CLASSES = b"""\
class C
  fun say(out: OutStream) => out.print("c")
class D
  fun say(out: OutStream) => out.print("d")
actor Main
  new create(env: Env) => C().say(env.out)
"""

# A trait's bodies: a function that sends, taken over by two classes, and a behaviour, taken over by two actors.
TAKEN = b"""\
trait Says
  fun say(out: OutStream) => out.print("s")
trait tag Beats
  be beat() => None
class C is Says
class D is Says
actor A is Beats
actor B is Beats
actor Main
  new create(env: Env) =>
    C().say(env.out)
    D().say(env.out)
    A().beat()
"""

# A call on an interface: it may reach each actor that conforms to it, even one that is never made.
INTERFACE = b"""\
interface Sink
  be take(n: U64)
actor Counter
  be take(n: U64) => None
  be spare() => None
actor Other
  be take(n: U64) => None
actor Apart
  be take(n: Bool) => None
actor Main
  new create(env: Env) =>
    let sink: Sink tag = Counter
    sink.take(1)
"""

# A call on a trait: so may this, since an actor conforms to it by its methods, even if it does not name it.
TRAIT = b"""\
trait Sink
  be take(n: U64)
actor Counter is Sink
  be take(n: U64) => None
actor Other
  be take(n: U64) => None
actor Main
  new create(env: Env) =>
    let sink: Sink tag = Counter
    sink.take(1)
"""

# What a function sends that nobody calls is not sent; what a called function sends is sent by its entity.
UNCALLED = b"""\
class Idle
  fun tell(a: A) => a.stop()
class Busy
  fun tell(a: A) => a.go()
actor A
  be go() => None
  be stop() => None
actor Main
  new create(env: Env) =>
    let idle: Idle = Idle
    let busy: Busy = Busy
    busy.tell(A)
"""

SENT = [
    (
        "a bank",
        BANK,
        b"",
        b"Teller sends OutStream.print\n"
        b"Teller sends Teller.deposit\n"
        b"Main sends Teller.create\n"
        b"Main sends Teller.deposit\n"
        b"Main sends Teller.withdraw\n"
        b"Main sends Teller.report\n",
    ),
    ("a behaviour that nothing sends", STOPS, b"", b"Main sends A.go\nMain sends A.create\nnever A.stop\n"),
    (
        "an interface and a trait",
        SHAPES,
        b"",
        b"Main sends A.go\n"
        b"Main sends A.stop\n"
        b"Main sends A.create\n"
        b"Main sends B.stop\n"
        b"never B.create\n"
        b"never Main.other\n",
    ),
    (
        "an interface",
        INTERFACE,
        b"",
        b"Main sends Counter.take\n"
        b"Main sends Counter.create\n"
        b"Main sends Other.take\n"
        b"never Counter.spare\n"
        b"never Other.create\n"
        b"never Apart.take\n"
        b"never Apart.create\n",
    ),
    (
        "a trait",
        TRAIT,
        b"",
        b"Main sends Counter.take\nMain sends Counter.create\nMain sends Other.take\nnever Other.create\n",
    ),
    ("a function that nobody calls", UNCALLED, b"", b"Busy sends A.go\nMain sends A.create\nnever A.stop\n"),
    ("a class without an object", CLASSES, b"", b"C sends OutStream.print\n"),
    # The entity that took over the method is the one that sends; traits send nothing.
    (
        "the entity that took over the method",
        TAKEN,
        b"",
        b"C sends OutStream.print\n"
        b"D sends OutStream.print\n"
        b"Main sends A.create\n"
        b"Main sends A.beat\n"
        b"never B.create\n"
        b"never B.beat\n",
    ),
    ("a greeting", HELLO, b"", b"Main sends OutStream.print\n"),
    # If nothing is sent, the text is empty.
    ("nothing is sent", b"actor Main\n  new create(env: Env) => None\n", b"", b""),
]

KEEPS = b"""\
class C
actor A
  be go(c: C ref) => None
actor Main
  new create(env: Env) => None
"""

WORDS = [
    (["sends"], 2, USAGE),
    (["sends", "a.pony", "a.sched"], 2, USAGE),
]

REFUSED = [
    ("no tree", b"", b"", 3, b"a.pony:1:1: unexpected\n"),
    ("no Main", b"class C\n", b"", 4, b"a.pony: no Main\n"),
    ("a parameter that may not be sent", KEEPS, b"", 1, b"a.pony:3:9: parameter not sendable\n"),
]

ROWS = [
    *answers("who sends what", SENDS, SENT),
    *spoken("a source without a table is refused", b"", WORDS),
    *refusals("a source without a table is refused", SENDS, REFUSED),
]
