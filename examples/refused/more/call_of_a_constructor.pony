class C
  new create() => None
actor Main
  new create(env: Env) =>
    let c: C ref = C
    c.create()
