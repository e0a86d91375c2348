class C
  fun val m() => None
actor Main
  new create(env: Env) =>
    let c: C iso = C
    c.m()
