actor Main
  new create(env: Env) =>
    var n: U64 = 0
    var sum: U64 = 0
    while n < 1000000 do
      sum = sum + n
      n = n + 1
    end
    env.out.print(sum.string())
