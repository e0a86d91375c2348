class C
  fun ref m() => None
actor Main
  new create(env: Env) =>
    let c: C val = C
    c.m()
