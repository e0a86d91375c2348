class Seat
  var height: U64 = 40

class Bus
  var driver: Seat ref = Seat

  fun height(): U64 =>
    let seat: Seat box = driver
    seat.height

actor Main
  new create(env: Env) =>
    let bus: Bus ref = Bus
    env.out.print(bus.height().string())
