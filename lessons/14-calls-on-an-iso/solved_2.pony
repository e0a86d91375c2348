class Engine
  var power: U64 = 70

class Boat
  let _engine: Engine ref = Engine

  fun power(): U64 =>
    _engine.power

actor Main
  new create(env: Env) =>
    let boat: Boat iso = Boat
    env.out.print(boat.power().string())
