class Song
  var title: String = ""

actor Radio
  be play(out: OutStream, song: Song val) =>
    out.print(song.title)

actor Main
  new create(env: Env) =>
    let song: Song trn = Song
    song.title = "Yesterday"
    Radio().play(env.out, consume song)
