// Two actors that make a worker each, in steps that may stand next to each other.
actor Worker

actor Maker
  be make() =>
    Worker

actor Main
  new create(env: Env) =>
    Maker().make()
    Maker().make()
