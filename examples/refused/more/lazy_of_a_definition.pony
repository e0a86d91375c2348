actor Main
  new create(env: Env) =>
    (let b: Bool = true) or false
