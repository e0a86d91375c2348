class Entry
  var value: U64 = 0

actor Cache
  var _entry: Entry val = Entry

  be count(out: OutStream) =>
    _entry.value = _entry.value + 1
    out.print(_entry.value.string())

actor Main
  new create(env: Env) =>
    let cache: Cache = Cache
    cache.count(env.out)
    cache.count(env.out)
