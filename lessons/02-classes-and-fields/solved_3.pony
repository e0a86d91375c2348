class Counter
  var sum: U64 = 0

  fun ref add(n: U64): U64 =>
    sum = sum + n
    sum

actor Main
  new create(env: Env) =>
    let counter: Counter ref = Counter
    env.out.print(counter.add(5).string())
