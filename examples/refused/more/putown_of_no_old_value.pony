class C
  var n: U64
  var m: U64
  new create() =>
    n = m = 1
actor Main
  new create(env: Env) =>
    C
