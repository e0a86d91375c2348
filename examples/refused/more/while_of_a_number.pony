actor Main
  new create(env: Env) =>
    var left: U64 = 3
    while left do left = left - 1 end
