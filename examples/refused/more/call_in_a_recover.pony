class C
  fun ref m(): U64 => 1
  fun ref o() =>
    let x: U64 = recover val m() end
actor Main
  new create(env: Env) => None
