"""A small bank."""
trait Report
  fun line(): String

class Account is Report
  let _name: String
  var _sum: U64 = 0

  new iso create(name: String) =>
    _name = name

  fun ref add(n: U64): U64 =>
    _sum = _sum + n
    _sum

  fun ref take(n: U64): Bool =>
    """Takes n where the sum holds it."""
    if n <= _sum then
      _sum = _sum - n
      true
    else
      false
    end

  fun line(): String => _name + ": " + _sum.string()

actor Teller
  let _out: OutStream
  var _account: Account iso

  new create(out: OutStream, account: Account iso) =>
    _out = out
    _account = consume account

  be deposit(n: U64) =>
    _account.add(n) // the account is iso: receiver recovery

  be withdraw(n: U64, to: Teller) =>
    if _account.take(n) then
      to.deposit(n)
    else
      _out.print("refused " + n.string())
    end

  be report() =>
    _out.print(_account.line())

actor Main
  new create(env: Env) =>
    let ann: Teller = Teller(env.out, Account("ann"))
    let bob: Teller = Teller(env.out, Account("bob"))
    ann.deposit(100)
    ann.withdraw(30, bob)
    bob.withdraw(500, ann)
    ann.report()
    bob.report()
