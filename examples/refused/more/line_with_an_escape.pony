actor Main
  new create(env: Env) =>
    "[2J"; not ""
