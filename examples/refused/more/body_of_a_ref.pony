class C
  fun m(c: C ref): C val => c
actor Main
  new create(env: Env) => None
