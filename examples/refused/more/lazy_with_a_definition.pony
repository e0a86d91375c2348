actor Main
  new create(env: Env) =>
    false or (let b: Bool = true)
