trait Shape
  fun area(): U64

interface Named
  fun name(): String

class Square is Shape
  let _side: U64

  new create(side: U64) =>
    _side = side


  fun name(): String => "square"

actor Main
  new create(env: Env) =>
    let shape: Shape box = Square(3)
    let named: Named box = Square(4)
    env.out.print(named.name() + ", area " + shape.area().string())
