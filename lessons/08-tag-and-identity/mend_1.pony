actor Door
  var _open: Bool = false

  be open() =>
    _open = true

  fun is_open(): Bool =>
    _open

actor Main
  new create(env: Env) =>
    let door: Door = Door
    door.open()
    env.out.print("open: " + door.is_open().string())
