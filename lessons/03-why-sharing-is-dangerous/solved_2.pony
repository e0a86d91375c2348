actor Clock
  let _out: OutStream
  var _ticks: U64 = 0

  new create(out: OutStream) =>
    _out = out

  be tick() =>
    _ticks = _ticks + 1
    _out.print("tick " + _ticks.string())

  be report() =>
    _out.print("ticks: " + _ticks.string())

actor Main
  new create(env: Env) =>
    let clock: Clock = Clock(env.out)
    clock.tick()
    clock.tick()
    clock.report()
