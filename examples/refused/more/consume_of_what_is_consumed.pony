class C
actor Main
  new create(env: Env) =>
    let a: C iso = C
    let b: C iso = consume a
    let d: C iso = consume a
