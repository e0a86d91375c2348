actor Main
  new create(env: Env) =>
    false xor (let b: Bool = true)
