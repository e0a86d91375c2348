actor Main
  new create(env: Env) =>
    "one" + (let s: String = "two")
