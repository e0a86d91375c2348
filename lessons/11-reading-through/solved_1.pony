class Engine
  var power: U64 = 90

class Garage
  var spare: Engine iso = Engine

  fun ref take(): Engine iso^ =>
    spare = Engine

actor Main
  new create(env: Env) =>
    let garage: Garage ref = Garage
    let engine: Engine iso = garage.take()
    env.out.print(engine.power.string())
