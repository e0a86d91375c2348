class C
  fun make(): C trn => let c: C trn = C; c
  fun both(): C trn^ => make()
actor Main
  new create(env: Env) => None
