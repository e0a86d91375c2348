class C
  var n: U64 = 0
  fun tag m(): U64 => n
actor Main
  new create(env: Env) => None
