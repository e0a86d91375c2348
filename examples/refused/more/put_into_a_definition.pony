actor Main
  new create(env: Env) =>
    (let b: Bool = true).n = 1
