class Token
  var hops: U64 = 0

actor Station
  let _name: String
  let _out: OutStream
  var _next: Station

  new create(name: String, out: OutStream) =>
    _name = name
    _out = out
    _next = this

  be link(next: Station) =>
    _next = next

  be pass(token: Token iso, left: U64) =>
    _out.print(_name + ", then " + left.string() + " more")
    if left > 0 then
      left = left - 1
      _next.pass(consume token, left)
    end

actor Main
  new create(env: Env) =>
    let ann: Station = Station("ann", env.out)
    let bob: Station = Station("bob", env.out)
    ann.link(bob)
    bob.link(ann)
    ann.pass(Token, 3)
