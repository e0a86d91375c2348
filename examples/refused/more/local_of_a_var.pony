class C
actor Main
  new create(env: Env) =>
    var a: C iso = C
    let b: C iso = consume a
    a = C
    let d: C iso = consume a
    let e: C tag = a
