class C
  new create(n: U64) => None
actor Main
  new create(env: Env) =>
    C(1, 2)
