actor A
  var n: U64 = 1
actor Main
  new create(env: Env) =>
    let a: A = A
    a.n = 2
