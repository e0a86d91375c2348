class C
  fun me() =>
    var x: C ref = C
    x = this
actor Main
  new create(env: Env) => None
