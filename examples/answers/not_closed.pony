// Refused: the text has no end.
actor Main
  new create(env: Env) => env.out.print("hello)
