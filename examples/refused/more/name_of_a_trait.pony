trait T
actor Main
  new create(env: Env) =>
    T
