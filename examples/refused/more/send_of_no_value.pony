actor Keeper
  be keep(n: U64) => None
actor Main
  new create(env: Env) =>
    let k: Keeper = Keeper
    k.keep(if true then let n: U64 = 1 else 2 end)
