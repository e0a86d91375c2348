"""A shared cache. What is in it is a val: many actors read one object, and a new value is a new object."""
class Entry
  let key: String
  let value: U64

  new val create(key': String, value': U64) =>
    key = key'
    value = value'

  fun line(): String =>
    key + " = " + value.string()

actor Cache
  var _entry: Entry val

  new create(entry: Entry val) =>
    _entry = entry

  be put(entry: Entry val) =>
    _entry = entry

  be get(reader: Reader) =>
    reader.receive(_entry)

actor Reader
  let _name: String
  let _out: OutStream

  new create(name: String, out: OutStream) =>
    _name = name
    _out = out

  be receive(entry: Entry val) =>
    _out.print(_name + ": " + entry.line())

actor Main
  new create(env: Env) =>
    let ann: Reader = Reader("ann", env.out)
    let bob: Reader = Reader("bob", env.out)
    let cache: Cache = Cache(Entry("rate", 41))
    cache.get(ann)
    cache.put(Entry("rate", 42))
    cache.get(bob)
