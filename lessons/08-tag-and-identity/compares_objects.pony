class Key
  var teeth: U64 = 5

actor Lock
  let _out: OutStream
  let _fits: Key tag

  new create(out: OutStream, fits: Key tag) =>
    _out = out
    _fits = fits

  be turn(key: Key tag) =>
    if key == _fits then
      _out.print("open")
    else
      _out.print("shut")
    end

actor Main
  new create(env: Env) =>
    let key: Key iso = Key
    let lock: Lock tag = Lock(env.out, key)
    lock.turn(key)
    lock.turn(Key)
    key.teeth = 6
