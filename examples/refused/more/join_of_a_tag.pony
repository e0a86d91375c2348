actor Main
  new create(env: Env) =>
    let s: String tag = "one"
    s + "two"
