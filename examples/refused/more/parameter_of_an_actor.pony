class C
actor Keeper
  new create(c: C ref) => None
actor Main
  new create(env: Env) => None
