// Refused: what may be called on a reader of the trait, the class does only for who may write.
trait Named
  fun box name(): String

class Cat is Named
  fun ref name(): String => "cat"

actor Main
  new create(env: Env) => None
