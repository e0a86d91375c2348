actor Worker
  be work(out: OutStream) =>
    out.print("done")

actor Main
  new create(env: Env) =>
    let first: Worker = Worker
    let second: Worker = Worker.create()
    first.work(env.out)
    second.work(env.out)
