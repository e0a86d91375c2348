class C
  var n: U64 = 0
actor Main
  new create(env: Env) =>
    let c: C ref = C
    c.n()
