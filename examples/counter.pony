// A counter that is made inside a `recover`, so that nobody else names it, and is handed to an actor of its own.
class Counter
  var _sum: U64 = 0

  fun ref add(n: U64): U64 =>
    _sum = _sum + n
    _sum

actor Keeper
  let _out: OutStream
  var _counter: Counter iso

  new create(out: OutStream, counter: Counter iso) =>
    _out = out
    _counter = consume counter

  be add(n: U64) =>
    let sum: U64 = _counter.add(n)     // called as a `ref`: only a number goes in, and one comes out
    _out.print(sum.string())

actor Main
  new create(env: Env) =>
    let counter: Counter iso = recover
      let fresh: Counter ref = Counter // inside, an object to work on
      fresh.add(1)
      fresh
    end
    let keeper: Keeper = Keeper(env.out, consume counter)
    keeper.add(2)
    keeper.add(3)
