// Refused: `B` takes over a body that names a field, and has no such field.
trait Counts
  fun twice(): U64 => _n * 2
class A is Counts
  let _n: U64 = 1
class B is Counts
actor Main
  new create(env: Env) => None
