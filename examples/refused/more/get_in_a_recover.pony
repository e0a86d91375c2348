class C
  var n: U64 = 0
  fun ref m() =>
    let x: U64 = recover val n end
actor Main
  new create(env: Env) => None
