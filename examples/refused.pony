// Refused: an `iso` has no second name that may read it.
class Apple

actor Main
  new create(env: Env) =>
    let a: Apple iso = Apple
    let b: Apple tag = a          // this name may only compare it
    let c: Apple iso = a          // and this one would read it: no rule
