class C
  var n: U64 = 1
actor Main
  new create(env: Env) =>
    let c: C ref = C
    c.n = true
