actor A
  be go() => None
  be stop() => None
actor Main
  new create(env: Env) => A().go()
