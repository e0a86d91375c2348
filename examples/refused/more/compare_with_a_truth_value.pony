actor Main
  new create(env: Env) =>
    2 >= true
