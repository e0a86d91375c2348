trait Adder
  fun add(n: U64, m: U64): U64
class C is Adder
  fun add(n: U64): U64 => n
actor Main
  new create(env: Env) => None
