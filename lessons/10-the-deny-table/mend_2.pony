class Film
  var minutes: U64 = 90

class Critic
  fun ref cut(film: Film box) =>
    film.minutes = film.minutes - 10

actor Main
  new create(env: Env) =>
    let film: Film ref = Film
    let critic: Critic ref = Critic
    critic.cut(film)
    env.out.print(film.minutes.string())
