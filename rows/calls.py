"""Calls: what a receiver may be, and what goes to parameters."""

from programs import BANK, CHAIN, HELLO, READERS
from tables import built, endings

PROGRAMS = [
    ("a greeting", HELLO, 0, b""),
    ("a chain", CHAIN, 0, b""),
    ("two readers", READERS, 0, b""),
    ("a bank", BANK, 0, b""),
]

CALLS = [
    # A message takes nothing that its sender could still write.
    (
        b"class C\nactor A\n  be take(c: C ref) => None\nactor Main\n  new create(env: Env) => A\n",
        1,
        b"a.pony:3:11: parameter not sendable\n",
    ),
    # The receiver was given away among the arguments.
    (
        b"class C\n"
        b"  fun ref f(c: C iso) => None\n"
        b"actor Main\n"
        b"  new create(env: Env) =>\n"
        b"    let x: C iso = C\n"
        b"    x.f(consume x)\n",
        1,
        b"a.pony:6:5: no rule\n",
    ),
]

COUNTER = b"class Counter\n  var _n: U64 = 0\n  fun ref add("

# An `iso` is called as a `ref` if all arguments may be sent.
COUNTED = [
    (
        b"n: U64) => _n = _n + n\n"
        b"actor Main\n"
        b"  var f: Counter iso = Counter\n"
        b"  new create(env: Env) =>\n"
        b"    this.f.add(1)\n",
        0,
        b"",
    ),
    (
        b"c: Counter ref) => None\n"
        b"actor Main\n"
        b"  var f: Counter iso = Counter\n"
        b"  new create(env: Env) =>\n"
        b"    this.f.add(Counter)\n",
        0,
        b"",
    ),
    (
        b"c: Counter ref) => None\n"
        b"actor Main\n"
        b"  var f: Counter iso = Counter\n"
        b"  new create(env: Env) =>\n"
        b"    let c: Counter ref = Counter\n"
        b"    this.f.add(c)\n",
        1,
        b"a.pony:8:5: no rule\n",
    ),
]

ME = b"""\
class C
  fun ref me(): C ref => this
actor Main
  new create(env: Env) =>
    let x: C iso = C
    x.me()
"""

# And then its result is used only if it may be sent.
RESULTS = [
    (b"", 0, b""),
    (b"    let z: C tag = x.me()\n", 1, b"a.pony:7:5: no rule\n"),
]

ROWS = [
    *built("whole programs are accepted", PROGRAMS),
    *endings("calls are accepted or refused", CALLS),
    *endings("an iso is called as a ref", COUNTED, before=COUNTER),
    *endings("the result of such a call may be sent", RESULTS, before=ME),
]
