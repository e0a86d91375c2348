class C
  fun x() => None
actor Main
  new create(env: Env) =>
    let c: C ref = C
    c.x
