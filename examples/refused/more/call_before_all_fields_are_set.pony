class C
  var n: U64
  new create() =>
    m()
    n = 1
  fun m() => None
actor Main
  new create(env: Env) => None
