class C
class Box
  var c: C val = C
  fun ref set(d: C box) => c = d
actor Main
  new create(env: Env) => None
