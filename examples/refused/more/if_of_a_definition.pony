actor Main
  new create(env: Env) =>
    if let b: Bool = true then None end
