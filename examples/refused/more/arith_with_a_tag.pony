actor Main
  new create(env: Env) =>
    let n: U64 tag = 1
    2 % n
