class Cell
  var value: U64 = 1

actor Main
  let _cell: Cell ref = Cell

  new create(env: Env) =>
    _cell.value = 5
    let value: U64 = _cell.value
    let copy: Cell iso = recover
      let fresh: Cell ref = Cell
      fresh.value = value
      fresh
    end
    env.out.print(copy.value.string())
