class C
  let n: U64 = 1
  fun ref set() => n = 2
actor Main
  new create(env: Env) => None
