class Thermometer
  var degrees: U64 = 20

  fun ref warm() =>
    degrees = degrees + 1

  fun line(): String =>
    "it has " + degrees.string() + " degrees"

actor Main
  new create(env: Env) =>
    let room: Thermometer ref = Thermometer
    room.warm()
    env.out.print(room.line())
