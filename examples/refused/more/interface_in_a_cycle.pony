interface A is B
interface B is A
actor Main
  new create(env: Env) => None
