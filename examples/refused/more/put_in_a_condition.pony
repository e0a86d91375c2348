class C
  let n: U64 = 1
actor Main
  new create(env: Env) =>
    let c: C ref = C
    while c.n = 2 do None end
