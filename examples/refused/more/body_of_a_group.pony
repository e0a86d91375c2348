class C
  fun m(): U64 => (let a: U64 = 1)
actor Main
  new create(env: Env) => None
