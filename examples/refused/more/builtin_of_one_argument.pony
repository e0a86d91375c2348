actor Main
  new create(env: Env) =>
    1.string(2)
