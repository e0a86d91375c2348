"""A token ring. The token is an iso: whoever has it is the only one, and passes it on whole."""
class Token
  var hops: U64 = 0

actor Station
  let _name: String
  let _out: OutStream
  var _next: Station

  new create(name: String, out: OutStream) =>
    _name = name
    _out = out
    _next = this // a tag as yet, which is all that an actor's name ever is

  be link(next: Station) =>
    _next = next

  be pass(token: Token iso) =>
    token.hops = token.hops + 1
    _out.print("hop " + token.hops.string() + ": " + _name)
    if token.hops < 4 then
      _next.pass(consume token)
    end

actor Main
  new create(env: Env) =>
    let ann: Station = Station("ann", env.out)
    let bob: Station = Station("bob", env.out)
    let cas: Station = Station("cas", env.out)
    ann.link(bob)
    bob.link(cas)
    cas.link(ann)
    ann.pass(Token)
