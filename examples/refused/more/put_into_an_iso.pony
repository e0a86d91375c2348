class B
class T
  var b: B box = B
actor Main
  new create(env: Env) =>
    let t: T iso = T
    let r: B ref = B
    t.b = r
