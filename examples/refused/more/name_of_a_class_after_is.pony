class D
class C is D
actor Main
  new create(env: Env) => None
