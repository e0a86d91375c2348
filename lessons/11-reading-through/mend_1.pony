class Engine
  var power: U64 = 90

class Garage
  var spare: Engine iso = Engine

  fun ref take(): Engine iso^ =>
    let old: Engine iso = spare
    spare = Engine
    consume old

actor Main
  new create(env: Env) =>
    let garage: Garage ref = Garage
    let engine: Engine iso = garage.take()
    env.out.print(engine.power.string())
