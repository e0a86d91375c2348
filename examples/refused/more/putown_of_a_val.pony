class C
class Box
  var c: C iso = recover val C end
  new create() => None
actor Main
  new create(env: Env) => None
