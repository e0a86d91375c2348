class Clock
  let hours: U64
  let minutes: U64
  var ticks: U64

  new create(total: U64) =>
    hours = minutes / 60
    minutes = total - (hours * 60)
    if minutes == 0 then
      ticks = hours
    else
      ticks = 0
    end
    tick()

  fun ref tick() =>
    ticks = ticks + 1

actor Main
  new create(env: Env) =>
    let clock: Clock ref = Clock(180)
    env.out.print(clock.hours.string() + " hours, " + clock.ticks.string() + " ticks")
