class C
  fun me() =>
    let x: C val = this
actor Main
  new create(env: Env) => None
