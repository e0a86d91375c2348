class C
  var n: U64 = true
  new create() => None
actor Main
  new create(env: Env) =>
    C
