actor Main
  new create(env: Env) =>
    let count: U64 = 3
    let text: String = "pages: " + count.string()
    env.out.print(text)
