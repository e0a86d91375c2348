// A post office: letters go through a desk, and nobody ever asks the desk to stop. What `sends` reports of it is in
// docs/steps.md.
interface tag Reader
  be letter(text: String)

actor Printer
  let _out: OutStream

  new create(out: OutStream) =>
    _out = out

  be letter(text: String) =>
    _out.print(text)

actor Archive
  var _count: U64 = 0

  be letter(text: String) =>
    _count = _count + 1

  be empty() =>
    _count = 0

actor Desk
  let _reader: Reader

  new create(reader: Reader) =>
    _reader = reader

  be hand_in(text: String) =>
    _reader.letter(text)

  be stop() =>
    _reader.letter("closed")

actor Main
  new create(env: Env) =>
    Desk(Printer(env.out)).hand_in("hello")
