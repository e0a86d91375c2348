trait Animal
  fun legs(): U64

trait Pet is Animal
  fun name(): String

class Cat is Pet
  fun legs(): U64 => 4

  fun name(): String => "Mia"

actor Main
  new create(env: Env) =>
    let pet: Pet box = Cat
    env.out.print(pet.name() + " has " + pet.legs().string() + " legs")
