actor Main
  new create(env: Env) =>
    let z: Z = 1
