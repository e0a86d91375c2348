class U64
actor Main
  new create(env: Env) => None
