trait Adder
  fun add(n: U64): U64
class C is Adder
  fun add(): U64 => 1
actor Main
  new create(env: Env) => None
