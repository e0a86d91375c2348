actor Main
  new create(env: Env) =>
    let ann: U64 = 7
    let bob: U64 = 5
    if ann.string() > bob.string() then
      env.out.print("ann is ahead")
    else
      env.out.print("bob is ahead")
    end
