class Basket
  var apples: U64 = 0

  fun ref put(n: U64) =>
    apples = apples + n

class Clerk
  fun price(basket: Basket box): U64 =>
    basket.apples * 20

actor Main
  new create(env: Env) =>
    let basket: Basket ref = Basket
    let same: Basket ref = basket
    let seen: Basket box = basket
    let packed: Basket val = Basket
    let clerk: Clerk ref = Clerk
    basket.put(2)
    same.put(3)
    env.out.print(seen.apples.string())
    env.out.print(clerk.price(basket).string())
    env.out.print(clerk.price(packed).string())
