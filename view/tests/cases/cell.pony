class Cell
  var n: U64 = 5
actor Main
  new create(env: Env) =>
    let c: Cell iso = Cell
    c.n = 6
