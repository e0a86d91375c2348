class Book
  var reads: U64 = 0

actor Library
  let _out: OutStream
  var _book: Book iso = Book

  new create(out: OutStream) =>
    _out = out

  be lend(reader: Reader) =>
    reader.read(_book = Book, this)

  be take_back(book: Book iso) =>
    _book = consume book
    _out.print("read " + _book.reads.string() + " times")

actor Reader
  be read(book: Book iso, library: Library) =>
    book.reads = book.reads + 1
    library.take_back(consume book)

actor Main
  new create(env: Env) =>
    Library(env.out).lend(Reader)
