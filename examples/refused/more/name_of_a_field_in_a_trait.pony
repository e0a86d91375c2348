trait T
  fun m() =>
    let f: U64 = 1
class C is T
  var f: U64 = 0
actor Main
  new create(env: Env) => None
