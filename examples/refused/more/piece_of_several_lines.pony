class C
  fun take(n: U64) => None
actor Main
  new create(env: Env) =>
    let c: C ref = C
    c.take(
      if true then "the first of the two"
      else "the second" end)
