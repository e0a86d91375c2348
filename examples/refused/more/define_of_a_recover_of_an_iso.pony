class C
actor Main
  new create(env: Env) =>
    let c: C iso = recover C end
    let d: C val = recover c end
