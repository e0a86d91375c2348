class C
class D
  var c: C iso = C
  fun ref give(): C iso^ => c
actor Main
  new create(env: Env) => None
