// Refused: a shape's area is a number, and the square's is a text.
interface Shape
  fun area(): U64

class Square
  fun area(): String => "nine"

actor Main
  new create(env: Env) =>
    let shape: Shape = Square
