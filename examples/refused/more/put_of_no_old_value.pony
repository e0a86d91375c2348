class C
class Box
  var c: C iso = C
  fun ref swap() =>
    var x: C iso = C
    let y: C iso = consume x
    c = x = C
actor Main
  new create(env: Env) => None
