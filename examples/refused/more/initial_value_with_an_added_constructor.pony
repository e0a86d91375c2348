class C
class Box
  var c: C iso = recover val C end
actor Main
  new create(env: Env) => None
