actor A
  fun m() => None
actor Main
  new create(env: Env) =>
    let a: A = A
    a.m()
