class C is Env
actor Main
  new create(env: Env) => None
