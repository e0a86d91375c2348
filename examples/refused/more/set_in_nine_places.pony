class C
  var n: U64
  new create(b: Bool) =>
    if b then n = 1 end
    if b then n = 1 end
    if b then n = 1 end
    if b then n = 1 end
    if b then n = 1 end
    if b then n = 1 end
    if b then n = 1 end
    if b then n = 1 end
    if b then n = 1 end
actor Main
  new create(env: Env) =>
    C(true)
