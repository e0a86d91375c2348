class Player
  var goals: U64 = 0

class Team
  let captain: Player ref
  let keeper: Player ref

  new create(first: Player ref, second: Player ref) =>
    captain = first
    keeper = second

actor Coach
  new create(out: OutStream, team: Team iso) =>
    let mine: Team ref = consume team
    mine.captain.goals = mine.captain.goals + 1
    out.print(mine.keeper.goals.string())

actor Main
  new create(env: Env) =>
    let guest: Player iso = Player
    var star: Player tag = Player
    let team: Team iso = recover
      let player: Player ref = consume guest
      player.goals = 7
      star = player
      Team(player, player)
    end
    Coach(env.out, consume team)
