class Cup
  var full: Bool = false

class Tray
  var cup: Cup trn = Cup

actor Main
  new create(env: Env) =>
    let tray: Tray trn = Tray
    let old: Cup trn = tray.cup = Cup
    env.out.print(old.full.string())
