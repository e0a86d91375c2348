class C
  fun m() => None
actor Main
  new create(env: Env) =>
    let c: C ref = C
    c.m(1)
