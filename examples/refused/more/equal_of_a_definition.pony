actor Main
  new create(env: Env) =>
    (let a: U64 = 1) == 2
