actor Main
  new create(env: Env) => None
  be set(n: U64) => n = 2
