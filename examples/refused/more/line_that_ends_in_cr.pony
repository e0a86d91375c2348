actor Main
  new create(env: Env) =>
    not 1
