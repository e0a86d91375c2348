actor Main
  new create(env: Env) =>
    var left: U64 = 3
    let go_on: U64 = 1
    while (left > 0) and go_on do
      env.out.print(left.string())
      left = left - 1
    end
