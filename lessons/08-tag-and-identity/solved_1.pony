actor Door
  var _open: Bool = false

  be open() =>
    _open = true

  be report(out: OutStream) =>
    out.print("open: " + is_open().string())

  fun is_open(): Bool =>
    _open

actor Main
  new create(env: Env) =>
    let door: Door = Door
    door.open()
    door.report(env.out)
