class Shelf
  var books: U64 = 0

  fun ref put(n: U64) =>
    books = books + n

  fun is_empty(): Bool =>
    books == 0

actor Main
  new create(env: Env) =>
    let shelf: Shelf ref = Shelf
    shelf.put(2)
    env.out.print("empty: " + shelf.is_empty().string())
