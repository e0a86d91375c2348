// Refused: different operators need parentheses between them.
actor Main
  new create(env: Env) =>
    let n: U64 = 1 + 2 * 3
    None
