class Ticket
  var seat: U64 = 0

actor Main
  new create(env: Env) =>
    var ticket: Ticket iso = Ticket
    ticket.seat = 12
    let sold: Ticket iso = consume ticket
    ticket = Ticket
    env.out.print(sold.seat.string() + " and " + ticket.seat.string())
