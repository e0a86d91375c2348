actor Main
  new create(env: Env) =>
    var n: U64 = 3
    while n > 0 do
      env.out.print("in " + n.string())
      n = n - 1
    end
    env.out.print("lift off")
