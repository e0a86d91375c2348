class C
actor Main
  new create(env: Env) =>
    let c: C ref = C
    c isnt (let d: C ref = C)
