class Wheel
  var turns: U64 = 0

class Car
  var wheel: Wheel ref = Wheel
  var plate: String = "LX-42"

actor Main
  new create(env: Env) =>
    let mine: Car ref = Car
    let shown: Car box = mine
    let draft: Car trn = Car
    let sold: Car val = Car
    let packed: Car iso = Car

    let a: Wheel ref = mine.wheel
    let b: Wheel box = shown.wheel
    let c: Wheel box = draft.wheel
    let d: Wheel val = sold.wheel
    let e: Wheel box = packed.wheel
    let plate: String = packed.plate
    env.out.print(plate)
