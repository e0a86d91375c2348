// Refused: what may be called on a reader of a shape, the square does only for who may write.
interface Shape
  fun box area(): U64

class Square
  var _side: U64 = 3

  fun ref area(): U64 =>
    _side = _side + 1
    _side * _side

actor Main
  new create(env: Env) =>
    let shape: Shape = Square
