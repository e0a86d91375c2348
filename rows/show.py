"""`show`: what is printed for which source, and what is refused."""

from programs import BANK, CHAIN
from tables import answers, refusals

SHOW = ("show", "a.pony")

LINE = b"actor Main new create(env: Env) => env.out.print(\"a\\tb\") // x\n"

PRINTED = b"""\
actor Main
  new create(env: Env) =>
    env.out.print("a\\tb")
"""

UNKNOWN = b"class C is D\n  let x: E = y\n"

REFUSED = [
    ("a bad byte", b"actor $", b"", 3, b"a.pony:1:7: bad byte\n"),
    ("an entity without a name", b"actor", b"", 3, b"a.pony:1:6: unexpected\n"),
    ("no bytes", b"", b"", 3, b"a.pony:1:1: unexpected\n"),
]

# CHAIN in the one layout: each item of a body on a line of its own, and an empty line between entities.
CHAIN_SHOWN = b"""\
trait Chain
  fun sum(): U64

class Stop is Chain
  new create() =>
    None
  fun sum(): U64 =>
    0

class Link is Chain
  let _head: U64
  let _tail: Chain
  new create(head: U64, tail: Chain) =>
    _head = head
    _tail = tail
  fun sum(): U64 =>
    _head + _tail.sum()

actor Reader
  let _out: OutStream
  new create(out: OutStream) =>
    _out = out
  be read(list: Chain val) =>
    _out.print(list.sum().string())

actor Main
  new create(env: Env) =>
    let list: Chain iso = recover Link(1, Link(2, Stop)) end
    Reader(env.out).read(consume list)
"""

# BANK in it: without docs and comments, and each `if` on one line.
BANK_SHOWN = b"""\
trait Report
  fun line(): String

class Account is Report
  let _name: String
  var _sum: U64 = 0
  new iso create(name: String) =>
    _name = name
  fun ref add(n: U64): U64 =>
    _sum = _sum + n
    _sum
  fun ref take(n: U64): Bool =>
    if n <= _sum then _sum = _sum - n; true else false end
  fun line(): String =>
    _name + ": " + _sum.string()

actor Teller
  let _out: OutStream
  var _account: Account iso
  new create(out: OutStream, account: Account iso) =>
    _out = out
    _account = consume account
  be deposit(n: U64) =>
    _account.add(n)
  be withdraw(n: U64, to: Teller) =>
    if _account.take(n) then to.deposit(n) else _out.print("refused " + n.string()) end
  be report() =>
    _out.print(_account.line())

actor Main
  new create(env: Env) =>
    let ann: Teller = Teller(env.out, Account("ann"))
    let bob: Teller = Teller(env.out, Account("bob"))
    ann.deposit(100)
    ann.withdraw(30, bob)
    bob.withdraw(500, ann)
    ann.report()
    bob.report()
"""

SHOWN = [
    ("one line", LINE, b"", PRINTED),
    ("names and types are not looked at", UNKNOWN, b"", UNKNOWN),
    ("a chain", CHAIN, b"", CHAIN_SHOWN),
    ("a chain, again", CHAIN_SHOWN, b"", CHAIN_SHOWN),
    ("a bank", BANK, b"", BANK_SHOWN),
    ("a bank, again", BANK_SHOWN, b"", BANK_SHOWN),
]

ROWS = [
    *answers("a source is shown in one layout", SHOW, SHOWN),
    *refusals("a source is not shown", SHOW, REFUSED),
]
