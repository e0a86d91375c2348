class Counter
  var sum: U64 = 0

  fun ref add() =>
    sum = sum + 1

actor Keeper
  let _out: OutStream
  let _counter: Counter ref = Counter

  new create(out: OutStream) =>
    _out = out

  be add() =>
    _counter.add()
    _out.print(_counter.sum.string())

  be show_to(adder: Adder) =>
    adder.look_at(_counter)

actor Adder
  be work(keeper: Keeper) =>
    keeper.add()

  be look_at(counter: Counter ref) => None

actor Main
  new create(env: Env) =>
    let keeper: Keeper = Keeper(env.out)
    let ann: Adder = Adder
    let bob: Adder = Adder
    keeper.show_to(ann)
    ann.work(keeper)
    bob.work(keeper)
