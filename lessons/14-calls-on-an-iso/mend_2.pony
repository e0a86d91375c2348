class Engine
  var power: U64 = 70

class Boat
  let _engine: Engine ref = Engine

  fun ref engine(): Engine ref =>
    _engine

actor Main
  new create(env: Env) =>
    let boat: Boat iso = Boat
    env.out.print(boat.engine().power.string())
