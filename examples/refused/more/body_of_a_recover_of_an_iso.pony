class C
  fun pass(c: C iso): C iso^ => recover c end
actor Main
  new create(env: Env) => None
