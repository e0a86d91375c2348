class C

actor Main
  new create(env: Env) =>
    let a: C iso = C
