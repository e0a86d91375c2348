actor Main
  new create(env: Env) =>
    let a: U64 = 1
    if true then let a: U64 = 2 end
