// Prints a text that doubles, until a step would make one of more than 4,096 bytes.
actor Main
  new create(env: Env) =>
    var text: String = "0123456789abcdef"
    while true do
      env.out.print(text)
      text = text + text
    end
