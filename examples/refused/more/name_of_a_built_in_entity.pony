actor Main
  new create(env: Env) =>
    U64
