class Score
  var points: U64 = 0

actor Main
  new create(env: Env) =>
    let score: Score trn = Score
    let board: Score box = score
    score.points = 3
    env.out.print(board.points.string())
    score.points = 4
    env.out.print(board.points.string())
