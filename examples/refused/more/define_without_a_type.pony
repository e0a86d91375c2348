actor Main
  new create(env: Env) =>
    let a = (let b: U64 = 1)
