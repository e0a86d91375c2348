trait A is B
trait B is A
actor Main
  new create(env: Env) => None
