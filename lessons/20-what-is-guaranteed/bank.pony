"""A bank. An account is at one branch at a time, which alone can read and write it, and may move to another one."""
class Account
  let owner: String
  var cents: U64 = 0

  new iso create(owner': String) =>
    owner = owner'

  fun ref pay_in(sum: U64) =>
    cents = cents + sum

  fun ref pay_out(sum: U64): Bool =>
    if sum <= cents then
      cents = cents - sum
      true
    else
      false
    end

  fun line(): String =>
    owner + " has " + cents.string()

actor Branch
  let _town: String
  let _out: OutStream
  var _account: Account iso

  new create(town: String, out: OutStream, account: Account iso) =>
    _town = town
    _out = out
    _account = consume account

  be pay_in(sum: U64) =>
    _account.pay_in(sum)

  be transfer(sum: U64, to: Branch) =>
    if _account.pay_out(sum) then
      to.pay_in(sum)
    else
      _out.print(_town + " refuses " + sum.string())
    end

  be move(to: Branch) =>
    to.take_over(_account = Account("nobody"))

  be take_over(account: Account iso) =>
    _account = consume account
    report()

  be report() =>
    _out.print("in " + _town + " " + _account.line())

actor Main
  new create(env: Env) =>
    let delft: Branch = Branch("Delft", env.out, Account("ann"))
    let leiden: Branch = Branch("Leiden", env.out, Account("bob"))
    let gouda: Branch = Branch("Gouda", env.out, Account("nobody"))
    delft.pay_in(100)
    delft.transfer(30, leiden)
    delft.transfer(500, leiden)
    delft.move(gouda)
    leiden.report()
