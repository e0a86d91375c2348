trait tag Counts
  fun tag count(): U64

actor Counter is Counts
  var _sum: U64 = 0

  be add() =>
    _sum = _sum + 1

  be count() =>
    None

actor Main
  new create(env: Env) =>
    let counter: Counter = Counter
    counter.add()
    env.out.print(counter.count().string())
