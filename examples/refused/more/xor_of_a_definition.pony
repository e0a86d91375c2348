actor Main
  new create(env: Env) =>
    (let b: Bool = true) xor false
