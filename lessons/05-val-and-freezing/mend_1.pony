class Price
  let cents: U64

  new create(cents': U64) =>
    cents = cents'

actor Shop
  new create(out: OutStream, price: Price val) =>
    out.print(price.cents.string())

actor Main
  new create(env: Env) =>
    Shop(env.out, Price(250))
