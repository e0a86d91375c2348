// Refused: each of the two would be below the other.
trait Egg is Hen

trait Hen is Egg

actor Main
  new create(env: Env) => None
