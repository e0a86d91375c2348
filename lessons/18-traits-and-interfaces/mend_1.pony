class Date
  let day: U64
  let month: U64

  new create(day': U64, month': U64) =>
    day = day'
    month = month'

actor Main
  new create(env: Env) =>
    let date: Date val = recover val Date(29, 11) end
    env.out.print("today is " + date.string())
