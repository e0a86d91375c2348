class Card
  let text: String = "hello"

actor Greeter
  let _name: String
  let _out: OutStream

  new create(name: String, out: OutStream) =>
    _name = name
    _out = out

  be show(card: Card val) =>
    _out.print(_name + " reads: " + card.text)

actor Main
  new create(env: Env) =>
    let card: Card ref = Card
    let ann: Greeter = Greeter("Ann", env.out)
    let bob: Greeter = Greeter("Bob", env.out)
    ann.show(card)
    bob.show(card)
