class C
  fun ref me(): C ref => this
class Box
  new create(c: C tag) => None
actor Main
  new create(env: Env) =>
    let x: C iso = C
    Box(x.me())
