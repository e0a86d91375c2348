"""The flow of a body: which locals hold something, in branches, loops and `recover`."""

from programs import OPEN
from steps import ANY, Row
from tables import CHECK, JUDGE, answered, endings, refused

# A local that was consumed gets a new value.
REFILLED = b"""\
class C
actor Main
  new create(env: Env) =>
    var a: C iso = C
    let b: C iso = consume a
    a = C
    let d: C iso = consume a
"""

FLOWS = [
    # What one branch consumes is gone after both.
    (b"    let a: C iso = C\n    if true then let b: C iso = consume a end\n", 0, b""),
    (
        b"    let a: C iso = C\n    if true then let b: C iso = consume a end\n    let d: C tag = a\n",
        1,
        b"a.pony:6:20: no rule\n",
    ),
    # A round of a loop leaves what the next one needs.
    (b"    var a: C iso = C\n    while true do let b: C iso = consume a end\n", 1, b"a.pony:5:5: no rule\n"),
    (b"    var a: C iso = C\n    while true do let b: C iso = consume a; a = C end\n", 0, b""),
    # A `recover` only reaches what may be sent, and of `this` its `tag`.
    (b"    let a: C ref = C\n    let b: C iso = recover let d: C ref = a; d end\n", 1, b"a.pony:5:43: no rule\n"),
    (b"    let a: C ref = C\n    let b: Main tag = recover this end\n", 0, b""),
]


def with_definition(answers):
    """The derivation of the step before, with a definition instead of its first assignment."""
    before, found, after = answers[-1].out.partition(b"assign")
    return before + b"define" + after if found else b""


# Three nodes of the class's constructor and five of Main's come before the assignment.
ANOTHER_RULE = Row(
    "another rule in a derivation is named",
    (answered(CHECK, REFILLED, b"", ANY), refused(JUDGE, REFILLED, with_definition, 6, b"a.der: node 8\n")),
)

ROWS = [
    *endings("a local that was consumed gets a new value", [(REFILLED, 0, b"")]),
    *endings("flow is accepted or refused", FLOWS, before=OPEN),
    ANOTHER_RULE,
]
