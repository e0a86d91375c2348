class Entry
  var cents: U64 = 0

class Account
  var cents: U64 = 0
  var last: Entry ref = Entry

  fun ref add(entry: Entry ref): U64 =>
    cents = cents + entry.cents
    last = entry
    cents

  fun ref newest(): Entry ref =>
    last

  fun val seal(): Account val =>
    this

actor Bank
  be pay(out: OutStream, account: Account iso) =>
    let entry: Entry iso = Entry
    entry.cents = 30
    let sum: U64 = account.add(consume entry)
    let newest: Entry tag = account.newest()
    let sealed: Account val = (consume account).seal()
    out.print(sum.string() + " of " + sealed.cents.string())

actor Main
  new create(env: Env) =>
    Bank().pay(env.out, Account)
