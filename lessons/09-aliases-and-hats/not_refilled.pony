class Coin
  var cents: U64 = 5

primitive Mint
  fun strike(cents: U64): Coin iso^ =>
    let coin: Coin iso = Coin
    coin.cents = cents
    consume coin

actor Main
  new create(env: Env) =>
    var coin: Coin iso = Mint.strike(10)
    let seen: Coin tag = coin
    let given: Coin iso = consume coin
    env.out.print(given.cents.string())
    env.out.print(coin.cents.string())
    env.out.print((seen is given).string())
