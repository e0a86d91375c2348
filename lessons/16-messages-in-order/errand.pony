class Job
  var done: U64 = 0

actor Worker
  be work(job: Job iso, boss: Boss) =>
    job.done = job.done + 1
    boss.back(consume job)

actor Boss
  let _out: OutStream

  new create(out: OutStream) =>
    _out = out

  be begin(worker: Worker) =>
    let job: Job iso = Job
    worker.work(consume job, this)
    _out.print("sent")

  be back(job: Job iso) =>
    _out.print("done: " + job.done.string())

actor Main
  new create(env: Env) =>
    let worker: Worker = Worker
    let boss: Boss = Boss(env.out)
    boss.begin(worker)
