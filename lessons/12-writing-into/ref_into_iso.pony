class Stamp
  var cents: U64 = 90

class Parcel
  var stamp: Stamp ref = Stamp
  var note: String = ""

actor Post
  be send(out: OutStream, parcel: Parcel iso) =>
    let mine: Parcel ref = consume parcel
    mine.stamp.cents = mine.stamp.cents - 5
    out.print(mine.note + ": " + mine.stamp.cents.string())

actor Main
  new create(env: Env) =>
    let parcel: Parcel iso = Parcel
    let stamp: Stamp ref = Stamp
    stamp.cents = 120
    parcel.note = "to Ann"
    parcel.stamp = consume stamp
    Post().send(env.out, consume parcel)
