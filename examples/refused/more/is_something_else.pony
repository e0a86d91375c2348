trait Named
  fun name(): String
actor Cat is Named
  be name() => None
actor Main
  new create(env: Env) => None
