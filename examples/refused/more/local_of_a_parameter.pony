class C
actor Main
  new create(env: Env) => None
  be keep(c: C iso) =>
    let a: C iso = consume c
    let b: C tag = c
