class Cat
class Dog

actor Main
  new create(env: Env) =>
    let cat: Cat tag = Cat
    let dog: Dog tag = Dog
    let is_home: Bool = true
    let same: Bool = if is_home then cat is cat else dog is cat end
    env.out.print("it is the cat: " + same.string())
