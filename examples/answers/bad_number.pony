// Refused: a number has at most 64 bits.
actor Main
  new create(env: Env) =>
    let n: U64 = 18446744073709551616
    None
