// Refused: the program begins with an actor's constructor, and this Main is a class.
class Main
  new create(env: Env) => None
