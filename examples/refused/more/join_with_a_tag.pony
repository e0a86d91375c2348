actor Main
  new create(env: Env) =>
    let s: String tag = "two"
    "one" + s
