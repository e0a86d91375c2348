// Refused: the trait asks for a method that the class does not have.
trait Named
  fun name(): String

class Cat is Named

actor Main
  new create(env: Env) => None
