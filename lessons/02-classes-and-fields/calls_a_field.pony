class Counter
  let name: String
  var sum: U64 = 0

  new create(called: String) =>
    name = called

  fun ref add(n: U64) =>
    sum = sum + n

  fun line(): String =>
    name + ": " + sum.string()

actor Main
  new create(env: Env) =>
    let apples: Counter ref = Counter("apples")
    apples.add(3)
    apples.add(4)
    env.out.print(apples.name())
