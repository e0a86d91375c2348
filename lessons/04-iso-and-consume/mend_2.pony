class Coat
  var size: U64 = 40

actor Guest
  let _out: OutStream

  new create(out: OutStream) =>
    _out = out

  be fetch(coat: Coat iso) =>
    _out.print("size " + coat.size.string())

actor Cloakroom
  var _coat: Coat iso = Coat

  be hand_out(guest: Guest) =>
    guest.fetch(consume _coat)

actor Main
  new create(env: Env) =>
    Cloakroom().hand_out(Guest(env.out))
