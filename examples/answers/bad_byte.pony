// Refused: a `#` begins no token.
actor Main
  new create(env: Env) => # None
