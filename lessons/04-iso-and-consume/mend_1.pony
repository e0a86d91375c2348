class Letter
  var text: String = "dear Ann"

actor Box
  let _out: OutStream
  var _letter: Letter iso = Letter

  new create(out: OutStream) =>
    _out = out

  be swap(letter: Letter iso, to: Box) =>
    let old: Letter iso = _letter
    _letter = consume letter
    to.keep(consume old)

  be keep(letter: Letter iso) =>
    _out.print(letter.text)
    _letter = consume letter

actor Main
  new create(env: Env) =>
    Box(env.out).swap(Letter, Box(env.out))
