class C
class C
actor Main
  new create(env: Env) => None
