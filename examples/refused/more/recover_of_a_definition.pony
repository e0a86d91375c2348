actor Main
  new create(env: Env) =>
    recover let a: U64 = 1 end
