class Total
  var cents: U64 = 0

actor Till
  let _out: OutStream
  let _total: Total = Total

  new create(out: OutStream) =>
    _out = out

  be sell(cents: U64) =>
    _total.cents = _total.cents + cents
    _out.print(_total.cents.string())

actor Main
  new create(env: Env) =>
    let till: Till = Till(env.out)
    till.sell(120)
    till.sell(80)
