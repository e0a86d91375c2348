class C
actor Main
  new create(env: Env) =>
    let c: C iso = recover C end
    let d = recover val let e: C iso = consume c; e end
