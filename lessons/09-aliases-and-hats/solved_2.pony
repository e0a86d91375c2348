class Shoe
  var size: U64 = 39

class Pair
  let left: Shoe iso
  let right: Shoe iso

  new create(left': Shoe iso, right': Shoe iso) =>
    left = consume left'
    right = consume right'

actor Main
  new create(env: Env) =>
    let shoe: Shoe iso = Shoe
    let pair: Pair ref = Pair(consume shoe, Shoe)
    env.out.print(pair.left.size.string())
