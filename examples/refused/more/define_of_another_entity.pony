trait Named
class C
actor Main
  new create(env: Env) =>
    let n: Named = C
