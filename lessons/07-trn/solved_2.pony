class Poem
  var lines: U64 = 0

actor Reciter
  be recite(out: OutStream, poem: Poem val) =>
    out.print(poem.lines.string() + " lines")

actor Main
  new create(env: Env) =>
    let poem: Poem trn = Poem
    let proof: Poem box = poem
    poem.lines = 14
    env.out.print("proof: " + proof.lines.string())
    Reciter().recite(env.out, consume poem)
