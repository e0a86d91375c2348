class Lamp
  var lit: Bool = false

  fun ref light() =>
    lit = true

class Room
  let _lamp: Lamp ref = Lamp

  fun ref lamp(): Lamp ref =>
    _lamp

actor Main
  new create(env: Env) =>
    let room: Room ref = Room
    let lamp: Lamp ref = room.lamp()
    lamp.light()
    env.out.print(lamp.lit.string())
