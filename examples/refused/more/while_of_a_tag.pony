actor Main
  new create(env: Env) =>
    let b: Bool tag = true
    while b do None end
