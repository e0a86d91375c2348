// `run` runs this; `trace`, which keeps a clock of each actor, stops where it would make the 65th.
actor Worker
  new create() => None

actor Main
  new create(env: Env) =>
    var made: U64 = 0
    while made < 100 do
      Worker
      made = made + 1
    end
