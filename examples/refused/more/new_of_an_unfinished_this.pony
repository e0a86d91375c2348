class Part
  new create(whole: Whole) => None
class Whole
  let part: Part
  new create() => part = Part(this)
actor Main
  new create(env: Env) => None
