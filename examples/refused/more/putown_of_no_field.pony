class C
  var n: U64
  new create() =>
    this.m = 1
    n = 2
actor Main
  new create(env: Env) =>
    C
