trait Named
  fun name(): String

trait Loud
  fun noise(): String

class Dog is (Named & Loud & Named)
  fun name(): String => "Rex"

  fun noise(): String => "woof"

actor Main
  new create(env: Env) =>
    let dog: Dog ref = Dog
    env.out.print(dog.name() + ": " + dog.noise())
