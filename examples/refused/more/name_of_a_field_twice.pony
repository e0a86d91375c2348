class C
  var f: U64 = 0
  fun m() =>
    let f: U64 = 1
actor Main
  new create(env: Env) => None
