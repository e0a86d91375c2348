class Letter
  var text: String = ""

actor Postman
  let _out: OutStream

  new create(out: OutStream) =>
    _out = out

  be deliver(letter: Letter iso) =>
    letter.text = letter.text + " (by post)"
    _out.print(letter.text)

actor Main
  new create(env: Env) =>
    let postman: Postman = Postman(env.out)
    let letter: Letter iso = Letter
    letter.text = "dear Ann"
    let mine: Letter iso = consume letter
    mine.text = mine.text + ", all is well"
    postman.deliver(consume mine)
    mine.text = "dear Bob"
