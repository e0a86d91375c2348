class C
actor Main
  new create(env: Env) =>
    let a: C iso = C
    while true do let b: C iso = consume a end
