// Accepted, and a run of it ends with 12: the text doubles until it would have more than 4,096 bytes.
actor Main
  new create(env: Env) =>
    env.out.print("begin")
    var text: String = "12345678"
    while true do
      text = text + text
    end
