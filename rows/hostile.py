"""Derivations and schedules that are cut short, huge or crafted."""

from programs import HELLO, ONE_OBJECT
from steps import ANY, Row
from tables import CHECK, JUDGE, RUN, answered, refusals, refused

DERIVATIONS = [
    ("no bytes", ONE_OBJECT, b"", 5, b"a.der:1: bad line\n"),
    ("more nodes than a number has", ONE_OBJECT, b"rcap-derivation 1 0 4294967296\n", 5, b"a.der:1: bad line\n"),
    ("too many slots", ONE_OBJECT, b"rcap-derivation 1 640001 0\n", 8, b"a.der: too many lines\n"),
    ("no slots and no nodes", ONE_OBJECT, b"rcap-derivation 1 0 0\n", 6, b"a.der: shape\n"),
]

SCHEDULES = [
    ("more turns than a number has", HELLO, b"4294967296", 7, b"a.sched:1:1: bad word\n"),
    ("an actor of eleven digits", HELLO, b"00000000001", 7, b"a.sched:1:1: bad word\n"),
    ("two signs", HELLO, b"1**2", 7, b"a.sched:1:1: bad word\n"),
    ("one turn too many of an actor", HELLO, b"0*1000001", 8, b"a.sched:1:1: too many steps\n"),
    ("one turn too many", HELLO, b"1*1000000 1", 8, b"a.sched:1:11: too many steps\n"),
    ("the first fault of two", HELLO, b"1*1000001 x", 8, b"a.sched:1:1: too many steps\n"),
    ("a sign and no number of turns", HELLO, b"1*", 7, b"a.sched:1:1: bad word\n"),
    ("a sign and no actor", HELLO, b"*1", 7, b"a.sched:1:1: bad word\n"),
    ("a sign alone", HELLO, b"*", 7, b"a.sched:1:1: bad word\n"),
    ("a sign of a number", HELLO, b"+1", 7, b"a.sched:1:1: bad word\n"),
    ("a letter after a number", HELLO, b"1x", 7, b"a.sched:1:1: bad word\n"),
    ("two numbers of turns", HELLO, b"1*2*3", 7, b"a.sched:1:1: bad word\n"),
    ("turns that no number has", HELLO, b"1*4294967296", 7, b"a.sched:1:1: bad word\n"),
    ("turns of eleven digits", HELLO, b"1*00000000001", 7, b"a.sched:1:1: bad word\n"),
    ("another blank", HELLO, b"1 \x0b2", 7, b"a.sched:1:3: bad word\n"),
    ("a bad word after two others", HELLO, b"7 1*0 x", 7, b"a.sched:1:7: bad word\n"),
    ("a bad word before one turn too many", HELLO, b"x 1*1000001", 7, b"a.sched:1:1: bad word\n"),
    ("too many turns on the second line", HELLO, b"1*1000000\n2*4294967295", 8, b"a.sched:2:1: too many steps\n"),
]


def longer(answers):
    """The derivation of the first step, with one more line end."""
    return answers[0].out + b"\n"


def shorter(answers):
    """The derivation of the first step, without its last two bytes."""
    return answers[0].out[:-2]


WRITTEN = Row(
    "a derivation that was written is refused with one more line, and without its last two bytes",
    (
        answered(CHECK, ONE_OBJECT, b"", ANY),
        refused(JUDGE, ONE_OBJECT, longer, 5, b"a.der:13: bad line\n"),
        refused(JUDGE, ONE_OBJECT, shorter, 5, b"a.der:12: bad line\n"),
    ),
)

ROWS = [
    *refusals("hostile derivations are refused at their first fault", JUDGE, DERIVATIONS),
    WRITTEN,
    *refusals("hostile schedules are refused at their first fault", RUN, SCHEDULES),
]
