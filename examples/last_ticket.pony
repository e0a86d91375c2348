// One ticket is left, and two guests ask for it. Who gets it depends on the order of their steps: `rcap outcomes` shows both ends.
actor Desk
  var _left: U64 = 1

  be ask(name: String, out: OutStream) =>
    if _left > 0 then
      _left = _left - 1
      out.print(name + " has the ticket")
    else
      out.print(name + " is too late")
    end

actor Guest
  new create(name: String, desk: Desk, out: OutStream) =>
    desk.ask(name, out)

actor Main
  new create(env: Env) =>
    let desk: Desk = Desk
    Guest("Ann", desk, env.out)
    Guest("Ben", desk, env.out)
