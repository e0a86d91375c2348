trait Named
actor Main
  new create(env: Env) =>
    let n: Named box = 3
