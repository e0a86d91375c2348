actor Keeper
  new create(n: U64) => None
actor Main
  new create(env: Env) =>
    var x: U64 = 1
    let y: U64 = consume x
    Keeper(x = y)
