class Table
  var seats: U64

  new create(guests: U64) =>
    var n: U64 = 0
    while n < guests do
      seats = n + 1
      n = n + 1
    end

actor Main
  new create(env: Env) =>
    let table: Table ref = Table(4)
    env.out.print(table.seats.string() + " seats")
