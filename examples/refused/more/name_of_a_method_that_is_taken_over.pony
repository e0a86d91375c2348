trait T
  fun m(): U64 => 1
class C is T
  fun o(): U64 => m
actor Main
  new create(env: Env) => None
