actor Main
  new create(env: Env) =>
    true + "one"
