actor Main
  new create(env: Env) =>
    let b: Bool tag = true
    false == b
