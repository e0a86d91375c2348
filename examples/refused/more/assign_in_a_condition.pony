actor Main
  new create(env: Env) =>
    let n: U64 = 1
    if n = 2 then None end
