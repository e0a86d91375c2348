actor Main
  new create(env: Env) =>
    not (let b: Bool = true)
