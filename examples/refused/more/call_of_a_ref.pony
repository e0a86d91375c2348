class C
  fun take(d: C iso) => None
actor Main
  new create(env: Env) =>
    let c: C ref = C
    c.take(c)
