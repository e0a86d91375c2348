// Refused: nothing here is named `cat`.
actor Main
  new create(env: Env) => env.out.print(cat)
