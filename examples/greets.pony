// Two actors that take over the bodies of one trait: each greets by its own name, and one of them in its own words.
trait tag Greets
  """Writes what it says and who says it, by the name of the actor that takes this over."""
  be greet(out: OutStream) =>
    out.print(word() + " from " + _name)

  fun word(): String => "hello"

actor Ann is Greets
  let _name: String = "Ann"

actor Ben is Greets
  let _name: String = "Ben"

  fun word(): String => "good day"

actor Main
  new create(env: Env) =>
    Ann().greet(env.out)
    Ben().greet(env.out)
