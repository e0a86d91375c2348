class C
  fun m() => None
  fun m() => None
actor Main
  new create(env: Env) => None
