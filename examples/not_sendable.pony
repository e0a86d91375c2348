// Refused: what a message takes could still be written by its sender.
class Counter
  var sum: U64 = 0

actor Keeper
  be keep(counter: Counter ref) =>     // a `ref` stays with its actor
    counter.sum = 1

actor Main
  new create(env: Env) =>
    let counter: Counter ref = Counter
    let keeper: Keeper = Keeper
    keeper.keep(counter)
