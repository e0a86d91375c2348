"""Whatever has an area is a shape: no class has to say so."""

interface Shape
  fun area(): U64

class Square
  let _side: U64

  new create(side: U64) =>
    _side = side

  fun area(): U64 => _side * _side

class Room
  let _width: U64
  let _depth: U64

  new create(width: U64, depth: U64) =>
    _width = width
    _depth = depth

  fun area(): U64 => _width * _depth

actor Main
  new create(env: Env) =>
    let first: Shape = Square(3)
    let second: Shape = Room(2, 5)
    env.out.print("together " + (first.area() + second.area()).string())
