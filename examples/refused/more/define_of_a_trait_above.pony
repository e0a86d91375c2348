trait Animal
trait Pet is Animal
class C
  fun m(animal: Animal) =>
    let pet: Pet = animal
actor Main
  new create(env: Env) => None
