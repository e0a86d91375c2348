class C
  fun m(): C iso^ =>
    let x: C iso = C
    x
actor Main
  new create(env: Env) => None
