// Two actors: Main makes a list inside a `recover` and sends it to a reader, which prints its sum.
trait Chain
  fun sum(): U64
class Stop is Chain
  new create() => None
  fun sum(): U64 => 0
class Link is Chain
  let _head: U64
  let _tail: Chain
  new create(head: U64, tail: Chain) =>
    _head = head
    _tail = tail
  fun sum(): U64 => _head + _tail.sum()
actor Reader
  let _out: OutStream
  new create(out: OutStream) => _out = out
  be read(list: Chain val) => _out.print(list.sum().string())
actor Main
  new create(env: Env) =>
    let list: Chain iso = recover Link(1, Link(2, Stop)) end
    Reader(env.out).read(consume list)
