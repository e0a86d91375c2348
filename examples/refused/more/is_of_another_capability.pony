class C
trait Keeper
  fun keep(c: C box)
class D is Keeper
  fun keep(it: C ref) => None
actor Main
  new create(env: Env) => None
