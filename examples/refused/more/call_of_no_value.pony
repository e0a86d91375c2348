class C
  fun take(n: U64) => None
actor Main
  new create(env: Env) =>
    let c: C ref = C
    c.take(if true then 1 else "one" end)
