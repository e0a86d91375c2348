actor Main
  new create(env: Env) =>
    var n: U64 = 1
    n = if true then 1 else let m: U64 = 2 end
