actor Main
  new create(env: Env) =>
    var n: U64 = 1
    n = "two"
