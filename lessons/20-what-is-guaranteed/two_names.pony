class Counter
  var n: U64 = 0

actor Adder
  new create(counter: Counter iso) =>
    counter.n = counter.n + 1

actor Main
  new create(env: Env) =>
    let a: Counter iso = Counter
    let b: Counter iso = a
    Adder(consume a)
    Adder(consume b)
