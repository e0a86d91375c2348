class C
  var n: U64
  new create() =>
    while true do n = 1 end
    n = 2
actor Main
  new create(env: Env) =>
    C
