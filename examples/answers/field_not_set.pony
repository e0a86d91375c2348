// Refused: the field has a value after one arm of the choice only.
class Cat
  let lives: U64

  new create(lucky: Bool) =>
    if lucky then
      lives = 9
    end

actor Main
  new create(env: Env) => None
