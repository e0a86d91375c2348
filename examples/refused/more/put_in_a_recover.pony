class C
  var n: U64 = 0
  fun ref m() =>
    let c: C iso = recover n = 1; C end
actor Main
  new create(env: Env) => None
