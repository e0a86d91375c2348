actor Main
  new create(env: Env) =>
    true xor 1
