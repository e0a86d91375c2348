actor Main
  new create(env: Env) =>
    env.out.print(42)
