// Refused: two entities of one name.
class Cat

class Cat

actor Main
  new create(env: Env) => None
