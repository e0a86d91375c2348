actor Main
  new create(env: Env) =>
    1 xor true
