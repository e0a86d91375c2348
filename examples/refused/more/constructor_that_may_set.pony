class C
  var n: U64
  new create(b: Bool, d: Bool) =>
    if b then n = 1 end
    if d then n = 2 end
actor Main
  new create(env: Env) => None
