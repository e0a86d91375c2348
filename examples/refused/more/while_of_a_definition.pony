actor Main
  new create(env: Env) =>
    while let b: Bool = true do None end
