class C
trait Giver
  fun give(): C ref
class D is Giver
  fun give(): C box => C
actor Main
  new create(env: Env) => None
