interface Named
  fun name(): String
class Robot
  fun name(n: U64): String => "robot"
actor Main
  new create(env: Env) =>
    let pet: Named = Robot
