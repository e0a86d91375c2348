class C
actor Main
  new create(env: Env) =>
    let c: C ref = C
    c.n = 1
