// Two classes, and a Main that makes objects of them and hands them on.
class Apple
class Pear

actor Main
  new create(env: Env) =>
    let a: Apple iso = Apple      // a new object, which nobody else names
    let b: Apple iso = consume a  // handed on whole: `a` is gone
    let c: Apple tag = b          // what names an `iso` besides may only compare it
    let d: Pear trn = Pear
    let e: Pear box = d           // a reader beside the one that may write
    let f: Pear val = consume d   // from here on nobody writes
