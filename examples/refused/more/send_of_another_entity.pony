actor Keeper
  be keep(n: U64) => None
actor Main
  new create(env: Env) =>
    let k: Keeper = Keeper
    k.keep("one")
