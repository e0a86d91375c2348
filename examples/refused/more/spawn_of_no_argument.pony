actor Keeper
  new create(n: U64) => None
actor Main
  new create(env: Env) =>
    Keeper
