actor Main
  new create(env: Env) =>
    let b: Bool tag = true
    if false then None elseif b then None end
