class C
  fun m(): U64 => if true then let a: U64 = 1 else 2 end
actor Main
  new create(env: Env) => None
