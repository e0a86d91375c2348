class Entry
  var value: U64 = 0

actor Cache
  var _entry: Entry val = Entry

  be count(out: OutStream) =>
    let next: Entry iso = Entry
    next.value = _entry.value + 1
    _entry = consume next
    out.print(_entry.value.string())

actor Main
  new create(env: Env) =>
    let cache: Cache = Cache
    cache.count(env.out)
    cache.count(env.out)
