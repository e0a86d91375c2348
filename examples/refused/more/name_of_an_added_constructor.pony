class C
  var create: U64 = 0
actor Main
  new create(env: Env) => None
