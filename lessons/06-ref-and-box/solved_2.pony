class Score
  var points: U64 = 0

class Judge
  fun better(a: Score box, b: Score box): Score box =>
    if a.points > b.points then a else b end

actor Main
  new create(env: Env) =>
    let ann: Score ref = Score
    let bob: Score ref = Score
    bob.points = 4
    let judge: Judge ref = Judge
    env.out.print(judge.better(ann, bob).points.string())
