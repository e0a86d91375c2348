class C
  var n: U64
  new create() =>
    this.size
    n = 1
  fun size(): U64 => n
actor Main
  new create(env: Env) =>
    C
