class C
  var n: U64
  let m: U64
  new create() => None
actor Main
  new create(env: Env) => None
