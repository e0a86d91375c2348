class C
  var f: U64 = 0
  fun ref m(a: U64) => consume f
actor Main
  new create(env: Env) => None
