// Refused: `\q` stands for no byte.
actor Main
  new create(env: Env) => env.out.print("\q")
