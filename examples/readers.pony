// Two actors that read one object and write what they read. Which of their steps may be exchanged is said in
// docs/steps.md.
class C
  let n: U64 = 5

actor R
  let _out: OutStream
  let _c: C val

  new create(out: OutStream, c: C val) =>
    _out = out
    _c = c

  be read() =>
    _out.print(_c.n.string())

actor Main
  new create(env: Env) =>
    let c: C val = C
    let a: R = R(env.out, c)
    let b: R = R(env.out, c)
    a.read()
    b.read()
