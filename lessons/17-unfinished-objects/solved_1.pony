class Ticket
  let price: U64
  let first: Bool

  new create(age: U64) =>
    first = false
    if age < 12 then
      price = 5
    else
      price = 10
    end

actor Main
  new create(env: Env) =>
    let ticket: Ticket ref = Ticket(30)
    env.out.print(ticket.price.string())
