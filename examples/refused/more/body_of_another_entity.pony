trait T
  fun m(): U64 => "one"
class C is T
actor Main
  new create(env: Env) => None
