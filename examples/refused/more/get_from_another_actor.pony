actor A
  let n: U64 = 1
actor Main
  new create(env: Env) =>
    let a: A = A
    let n: U64 = a.n
