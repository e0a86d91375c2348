class C
  fun iso m() => None
actor Main
  new create(env: Env) =>
    let c: C trn = C
    c.m()
