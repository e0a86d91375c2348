class C
  var n: U64 = 0
  fun m(a: U64, b: U64, c: U64, d: U64, e: U64, f: U64, g: U64) =>
    let h: U64 = 1
    let i: U64 = 1
    x
actor Main
  new create(env: Env) => None
