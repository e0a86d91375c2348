"""Limits: the largest input that is taken, and the smallest that is not, each at its limit and one past it."""

import texts
from programs import HELLO, IDLE, ONE_OBJECT
from tables import JUDGE, RUN, answers, built, refusals

BYTES = [
    ("1048576 bytes", texts.spaces(1_048_576), 3, b"a.pony:1:1048577: unexpected\n"),
    ("1048577 bytes", texts.spaces(1_048_577), 8, b"a.pony: longer than 1048576 bytes\n"),
    ("200000 tokens", b"." * 200_000, 3, b"a.pony:1:1: unexpected\n"),
    ("200001 tokens", b"." * 200_001, 8, b"a.pony:1:200001: too many tokens\n"),
]

SLOTS = [
    ("64 slots", texts.main_with_locals(62), 0, b""),
    ("65 slots", texts.main_with_locals(63), 8, b"a.pony:66:9: too many slots\n"),
]

TEXTS = [
    ("4096 bytes", texts.main_with_text(4_096), 0, b""),
    ("4097 bytes", texts.main_with_text(4_097), 8, b"a.pony:2:27: text too long\n"),
]

ENTITIES = [
    ("1000 entities", texts.classes(999, IDLE), 0, b""),
    ("1001 entities", texts.classes(1_000, IDLE), 8, b"a.pony:1001:7: too many entities\n"),
]

METHODS = [
    ("10000 methods", texts.methods(98, IDLE), 0, b""),
    ("10001 methods", texts.methods(99, IDLE), 8, b"a.pony:9903:7: too many methods\n"),
]

FIELDS = [
    ("64 fields", texts.class_with_fields(64, IDLE), 0, b""),
    ("65 fields", texts.class_with_fields(65, IDLE), 8, b"a.pony:66:7: too many fields\n"),
]

ONE_MORE = b"\nactor Main\n  new create(env: Env) => None\n"

TWO_MORE = b"\nactor Main\n  new create(env: Env) => None; None\n"

NODES = [
    ("200000 nodes", texts.nodes(ONE_MORE), 0, b""),
    ("200001 nodes", texts.nodes(TWO_MORE), 8, b"a.pony:104:7: too many nodes\n"),
]

LINES = [
    ("640000 slots", ONE_OBJECT, b"rcap-derivation 1 640000 0\n", 5, b"a.der:2: bad line\n"),
    ("640001 slots", ONE_OBJECT, b"rcap-derivation 1 640001 0\n", 8, b"a.der: too many lines\n"),
    ("200000 nodes", ONE_OBJECT, b"rcap-derivation 1 0 200000\n", 5, b"a.der:2: bad line\n"),
    ("200001 nodes", ONE_OBJECT, b"rcap-derivation 1 0 200001\n", 8, b"a.der: too many lines\n"),
]

DERIVATIONS = [
    ("33554432 bytes", ONE_OBJECT, texts.spaces(33_554_432), 5, b"a.der:1: bad line\n"),
    ("33554433 bytes", ONE_OBJECT, texts.spaces(33_554_433), 8, b"a.der: longer than 33554432 bytes\n"),
]

# The greeting is sent within ten turns, and waits: the stream has no turn.
TURNS = [("1000000 turns", HELLO, b"1*1000000", b"steps 10 skipped 999990 actors 2 objects 3 waiting 1\n")]

MORE_TURNS = [("1000001 turns", HELLO, b"1*1000001", 8, b"a.sched:1:1: too many steps\n")]

NOTHING_MOVED = [("1048576 bytes", HELLO, texts.spaces(1_048_576), b"steps 0 skipped 0 actors 2 objects 3 waiting 1\n")]

LONG_SCHEDULE = [("1048577 bytes", HELLO, texts.spaces(1_048_577), 8, b"a.sched: longer than 1048576 bytes\n")]

# A text of 4,096 bytes, with the numbers of the run that prints it.
LONGEST = b"x" * 4_096 + b"\nsteps 14 skipped 0 actors 2 objects 3 waiting 0\n"

PRINTED = [("4096 bytes", texts.main_that_joins(4_095), b"1*13 0", LONGEST)]

NOT_PRINTED = [("4097 bytes", texts.main_that_joins(4_096), b"1*13 0", 12, b"a.sched: text too long at step 8\n")]

ROWS = [
    *built("a file may have 1048576 bytes and 200000 tokens", BYTES),
    *built("a method may have 64 slots", SLOTS),
    *built("a text may have 4096 bytes", TEXTS),
    *built("a file may have 1000 entities", ENTITIES),
    *built("a file may have 10000 methods", METHODS),
    *built("an entity may have 64 fields", FIELDS),
    *built("a core may have 200000 nodes", NODES),
    *refusals("a derivation may have 640000 slots and 200000 nodes", JUDGE, LINES),
    *refusals("a derivation may have 33554432 bytes", JUDGE, DERIVATIONS),
    *answers("a schedule may have 1000000 turns", RUN, TURNS),
    *refusals("a schedule may have 1000000 turns", RUN, MORE_TURNS),
    *answers("a schedule may have 1048576 bytes", RUN, NOTHING_MOVED),
    *refusals("a schedule may have 1048576 bytes", RUN, LONG_SCHEDULE),
    *answers("a text of the machine may have 4096 bytes", RUN, PRINTED),
    *refusals("a text of the machine may have 4096 bytes", RUN, NOT_PRINTED),
]
