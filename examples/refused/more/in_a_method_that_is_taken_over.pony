trait T
  fun m(): U64 => 1 - true
class C is T
actor Main
  new create(env: Env) => None
