actor Main
  new create(env: Env) =>
    m
  fun m() => None
