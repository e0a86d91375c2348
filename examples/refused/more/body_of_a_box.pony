class C
  fun m(c: C box): C ref => c
actor Main
  new create(env: Env) => None
