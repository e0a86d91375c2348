"""Whole programs and derivations that several files of rows share, and parts of programs."""

# Makes one object, and holds it.
ONE_OBJECT = b"""\
class C
actor Main
  new create(env: Env) =>
    let a: C iso = C
"""

# Writes a line.
HELLO = b"actor Main\n  new create(env: Env) =>\n    env.out.print(\"hi\")\n"

# A list that is made whole inside a `recover` and sent to another actor, which prints its sum.
CHAIN = b"""\
trait Chain
  fun sum(): U64
class Stop is Chain
  new create() => None
  fun sum(): U64 => 0
class Link is Chain
  let _head: U64
  let _tail: Chain
  new create(head: U64, tail: Chain) =>
    _head = head
    _tail = tail
  fun sum(): U64 => _head + _tail.sum()
actor Reader
  let _out: OutStream
  new create(out: OutStream) => _out = out
  be read(list: Chain val) => _out.print(list.sum().string())
actor Main
  new create(env: Env) =>
    let list: Chain iso = recover Link(1, Link(2, Stop)) end
    Reader(env.out).read(consume list)
"""

# Two actors, each with an account that nobody else names.
BANK = b'''\
"""A small bank."""
trait Report
  fun line(): String

class Account is Report
  let _name: String
  var _sum: U64 = 0

  new iso create(name: String) =>
    _name = name

  fun ref add(n: U64): U64 =>
    _sum = _sum + n
    _sum

  fun ref take(n: U64): Bool =>
    """Takes n where the sum holds it."""
    if n <= _sum then
      _sum = _sum - n
      true
    else
      false
    end

  fun line(): String => _name + ": " + _sum.string()

actor Teller
  let _out: OutStream
  var _account: Account iso

  new create(out: OutStream, account: Account iso) =>
    _out = out
    _account = consume account

  be deposit(n: U64) =>
    _account.add(n) // the account is iso: receiver recovery

  be withdraw(n: U64, to: Teller) =>
    if _account.take(n) then
      to.deposit(n)
    else
      _out.print("refused " + n.string())
    end

  be report() =>
    _out.print(_account.line())

actor Main
  new create(env: Env) =>
    let ann: Teller = Teller(env.out, Account("ann"))
    let bob: Teller = Teller(env.out, Account("bob"))
    ann.deposit(100)
    ann.withdraw(30, bob)
    bob.withdraw(500, ann)
    ann.report()
    bob.report()
'''

# Two actors that read one object.
READERS = b"""\
class C
  let n: U64 = 5
actor R
  let _out: OutStream
  let _c: C val
  new create(out: OutStream, c: C val) =>
    _out = out
    _c = c
  be read() => _out.print(_c.n.string())
actor Main
  new create(env: Env) =>
    let c: C val = C
    let a: R = R(env.out, c)
    let b: R = R(env.out, c)
    a.read()
    b.read()
"""

# Writes one text, and then doubles another until it is too long.
DOUBLES = b"""\
actor Main
  new create(env: Env) =>
    env.out.print("go")
    var s: String = "ab"
    while true do s = s + s end
"""

# The derivation of ONE_OBJECT in version 1.
FIRST = b"""\
rcap-derivation 1 4 7
s 6 ref
s 7 ref
s 4 val
s 6 iso
n prim 0 val 1 0 1 0
n seq 0 val 1 0 1 0
n body - 1 0 1 0
n new 6 iso^ 3 0 3 0
n define - 3 0 7 0
n seq - 3 0 3 0
n body - 3 0 3 0
"""

# The same in version 2.
SECOND = b"""\
rcap-derivation 2 4 7
s 6 ref
s 7 ref
s 4 val
s 6 iso
n prim 0 val 1 0 0 0
n seq 0 val 1 0 0 0
n body - 1 0 0 0
n new 6 iso^ 3 0 0 0
n define - 3 0 4 0
n seq - 3 0 0 0
n body - 3 0 0 0
"""

# A Main that does nothing.
IDLE = b"actor Main\n  new create(env: Env) => None\n"

# A class, and a Main whose items are to follow.
OPEN = b"class C\nactor Main\n  new create(env: Env) =>\n"

# Numbers that wrap, and a quotient by zero.
NUMBERS = b"""\
actor Main
  new create(env: Env) =>
    env.out.print(((1 + 2) * 3).string())
    env.out.print((18446744073709551615 + 1).string())
    env.out.print((7 / 0).string())
"""

# A behaviour that takes what may not be sent, beside a Main that makes its actor.
UNSENDABLE = b"""\
class C
actor A
  be take(c: C ref) => None
actor Main
  new create(env: Env) => A
"""

# An actor that makes others without end.
CROWD = b"""\
actor A
actor Main
  new create(env: Env) =>
    while true do A end
"""
