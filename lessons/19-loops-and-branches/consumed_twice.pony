class Letter
  var number: U64 = 0

actor Postman
  be take(letter: Letter iso, out: OutStream) =>
    out.print("letter " + letter.number.string())

actor Main
  new create(env: Env) =>
    let postman: Postman = Postman
    var letter: Letter iso = Letter
    var n: U64 = 1
    while n < 4 do
      letter.number = n
      if n == 2 then
        postman.take(consume letter, env.out)
        letter = Letter
      end
      n = n + 1
    end
    postman.take(consume letter, env.out)
    postman.take(consume letter, env.out)
