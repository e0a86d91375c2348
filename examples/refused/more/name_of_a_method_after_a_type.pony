actor A
  be take() => None
actor Main
  new create(env: Env) =>
    A.take()
