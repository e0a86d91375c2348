interface Named
  fun name(): String
class Cat
class House
  new create(pet: Named) => None
actor Main
  new create(env: Env) =>
    House(Cat)
