class C
  var n: U64 = 4
  fun ref m() =>
    while n = 3 do None end
actor Main
  new create(env: Env) => None
