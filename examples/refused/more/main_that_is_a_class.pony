class Main
  new create(env: Env) => None
