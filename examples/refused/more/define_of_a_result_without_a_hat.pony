class C
primitive Make
  fun make(): C iso => recover C end
actor Main
  new create(env: Env) =>
    let c: C iso = Make.make()
