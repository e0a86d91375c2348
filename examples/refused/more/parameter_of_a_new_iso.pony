class C
class Box
  new iso create(c: C box) => None
actor Main
  new create(env: Env) => None
