class Total
  var cents: U64 = 0

actor Till
  let _out: OutStream
  let _total: Total

  new create(out: OutStream, total: Total) =>
    _out = out
    _total = total

  be sell(cents: U64) =>
    _total.cents = _total.cents + cents
    _out.print(_total.cents.string())

actor Main
  new create(env: Env) =>
    let till: Till = Till(env.out, Total)
    till.sell(120)
    till.sell(80)
