class Main
  new create(env: Env) =>
    env.out.print("ready")
