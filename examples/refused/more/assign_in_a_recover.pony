class C
actor Main
  new create(env: Env) =>
    var a: C ref = C
    let b: C iso = recover a = C; C end
