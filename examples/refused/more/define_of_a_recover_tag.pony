class C
actor Main
  new create(env: Env) =>
    let c: C iso = recover C end
    let d: C iso = recover tag c end
