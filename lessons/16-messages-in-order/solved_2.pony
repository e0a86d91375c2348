trait tag Counts
  be count(out: OutStream)

actor Counter is Counts
  var _sum: U64 = 0

  be add() =>
    _sum = _sum + 1

  be count(out: OutStream) =>
    out.print(_sum.string())

actor Main
  new create(env: Env) =>
    let counter: Counter = Counter
    counter.add()
    counter.count(env.out)
