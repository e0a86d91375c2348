class Route
  let first: String
  let last: String

  new val create(from: String, to: String) =>
    first = from
    last = to

  fun ref line(): String =>
    first + " to " + last

actor Driver
  new create(out: OutStream, route: Route val) =>
    out.print(route.line())

actor Main
  new create(env: Env) =>
    let route: Route val = Route("Delft", "Leiden")
    Driver(env.out, route)
    Driver(env.out, route)
