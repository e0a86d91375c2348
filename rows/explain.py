"""`explain` on whole programs: what is reported of a source that is refused, and which sources are refused here as well."""

from programs import IDLE
from steps import Row
from tables import CHECK, USAGE, answered, answers, named, refusals, refused, spoken
from texts import class_with_fields, in_groups

EXPLAIN = ("explain", "a.pony")

# A program that is accepted.
FINE = b"""\
class C
actor Main
  new create(env: Env) =>
    let a: C iso = C
"""

# A node at which no rule holds: an `iso` would have a second name.
SECOND_NAME = b"""\
class C
actor Main
  new create(env: Env) =>
    let a: C iso = C
    let b: C iso = a
"""

SECOND_NAME_LINE = b"a.pony:5:5: no rule\n"

SECOND_NAME_LINES = b"""\
5 |     let b: C iso = a
  |     ^^^^^^^^^^^^^^^^
node: the definition of `b`, C iso, in Main.create
part: the value `a` is C iso
rule define: the value has the form iso, an alias, and `b`, an iso, takes only iso^
hint: write `consume a`: it has the form iso^, and after it the name cannot be used
"""

# A declaration that fails.
SHARED = b"""\
class Counter
actor Keeper
  be keep(counter: Counter ref) => None
actor Main
  new create(env: Env) =>
    None
"""

SHARED_LINE = b"a.pony:3:11: parameter not sendable\n"

SHARED_LINES = b"""\
3 |   be keep(counter: Counter ref) => None
  |           ^^^^^^^
node: the parameter `counter`, Counter ref, of be Keeper.keep(counter: Counter ref)
rule parameters: ref is not sendable, and a behaviour takes only parameters of iso, val or tag
hint: declare it Counter iso, Counter val or Counter tag
"""

# A constructor that leaves a field unset.
UNSET = b"""\
class C
  var n: U64
  new create(b: Bool) =>
    if b then n = 1 end
actor Main
  new create(env: Env) =>
    C(true)
"""

UNSET_LINE = b"a.pony:3:7: field not set\n"

UNSET_LINES = b"""\
3 |   new create(b: Bool) =>
  |       ^^^^^^
node: the constructor new ref C.create(b: Bool val)
part: the field `n`, U64 val, is not set on every path: it is set only at 4:15
rule constructor: at the end of a constructor every field must be set
hint: give `n` an initial value, or set it on every path
"""

# A fault of the names of declarations, which comes before bodies are looked at.
NO_MAIN = b"class C\n"

NO_MAIN_LINE = b"a.pony: no Main\n"

NO_MAIN_LINES = b"""\
rule main: a program has one actor `Main` with `new create(env: Env)`, and this file has no entity of that name
hint: add `actor Main` with `new create(env: Env) => None`
"""

# A fault of the names in a body.
UNKNOWN = b"""\
actor Main
  new create(env: Env) =>
    let text: String = "hi"
    env.out.print(txt)
"""

UNKNOWN_LINE = b"a.pony:4:19: name unknown\n"

UNKNOWN_LINES = b"""\
4 |     env.out.print(txt)
  |                   ^^^
node: the name `txt` in Main.create
rule name: a bare name is a visible local or parameter (here `env`, `text`), a field of Main (none), or directly before arguments one of its methods (`create`)
"""

# A local with the name of a parameter.
TWICE = b"""\
actor Main
  new create(env: Env) =>
    let env: U64 = 1
"""

TWICE_LINE = b"a.pony:3:9: name twice\n"

TWICE_LINES = b"""\
3 |     let env: U64 = 1
  |         ^^^
node: the name `env` in Main.create
rule name: `env` is the name of the parameter at 2:14, which is visible here
hint: give one of the two another name
"""

# Two traits, each of which names the other.
CYCLE = b"""\
trait A is B
trait B is A
actor Main
  new create(env: Env) => None
"""

CYCLE_LINE = b"a.pony:1:7: trait in a cycle\n"

CYCLE_LINES = b"""\
1 | trait A is B
  |       ^
node: the trait A
rule is: a chain of `is` leads from A back to A
hint: take one `is` of the chain away
"""

# A Main that is no actor.
CLASS = b"""\
class Main
  new create(env: Env) => None
"""

CLASS_LINE = b"a.pony:1:7: Main is of another form\n"

CLASS_LINES = b"""\
1 | class Main
  |       ^^^^
node: the name `Main`
rule main: `Main` is an actor with a constructor `create` of exactly one parameter, of Env val
hint: write `actor Main` with `new create(env: Env) => ..`
"""

# A source, the status and the line with which `check` refuses it, and the lines after that one in its explanation.
EXPLAINED = [
    ("a second name of an iso", SECOND_NAME, 1, SECOND_NAME_LINE, SECOND_NAME_LINES),
    ("a parameter that may not be sent", SHARED, 1, SHARED_LINE, SHARED_LINES),
    ("a field that is not set", UNSET, 1, UNSET_LINE, UNSET_LINES),
    ("no Main", NO_MAIN, 4, NO_MAIN_LINE, NO_MAIN_LINES),
    ("an unknown name in a body", UNKNOWN, 4, UNKNOWN_LINE, UNKNOWN_LINES),
    ("a local with the name of a parameter", TWICE, 4, TWICE_LINE, TWICE_LINES),
    ("traits that name each other", CYCLE, 4, CYCLE_LINE, CYCLE_LINES),
    ("a Main that is a class", CLASS, 4, CLASS_LINE, CLASS_LINES),
]

ACCEPTED = [
    ("a program without a fault", FINE, b"", b"accepted\n"),
    ("a Main that does nothing", IDLE, b"", b"accepted\n"),
]

REFUSED = [
    ("a bad byte", b"actor $", b"", 3, b"a.pony:1:7: bad byte\n"),
    ("no bytes", b"", b"", 3, b"a.pony:1:1: unexpected\n"),
]

# Sources that `check` refuses in the same way.
PAST_LIMITS = [
    ("65 fields", class_with_fields(65, IDLE), b"a.pony:66:7: too many fields\n"),
    ("200 levels", in_groups(200), b"a.pony:3:204: nested too deep\n"),
]

WORDS = [
    (("explain",), 2, USAGE),
    (("explain", "a.pony", "a.der"), 2, USAGE),
]


def explained(name, source, status, line, lines):
    """`check` refuses a source with this status and line, and the explanation is the line and these lines."""
    steps = (refused(CHECK, source, b"", status, line), answered(EXPLAIN, source, b"", line + lines))
    return Row(named("what check refuses is explained", name), steps)


ROWS = [
    *(explained(*row) for row in EXPLAINED),
    *answers("other sources are accepted", EXPLAIN, ACCEPTED),
    *refusals("other sources are refused", EXPLAIN, REFUSED),
    *(
        Row(named("a limit is passed", name), (refused(CHECK, source, b"", 8, line), refused(EXPLAIN, source, b"", 8, line)))
        for name, source, line in PAST_LIMITS
    ),
    *spoken("words name explain", FINE, WORDS),
]
