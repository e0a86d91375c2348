actor Main
  new create(env: Env) =>
    2 != (let a: U64 = 1)
