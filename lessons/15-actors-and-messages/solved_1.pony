actor Echo
  let _out: OutStream

  new create(out: OutStream) =>
    _out = out
    greet()

  be greet() =>
    _out.print("ready")

  be say(text: String) =>
    _out.print(text)

actor Main
  new create(env: Env) =>
    let echo: Echo = Echo(env.out)
    echo.say("hello")
