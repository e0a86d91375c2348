trait Named
  fun name(): String
class Cat is Named
  fun name(): U64 => 1
actor Main
  new create(env: Env) => None
