actor Main
  new create(env: Env) =>
    var left: U64 = 3
    while left do
      env.out.print(left.string())
      left = left - 1
    end
