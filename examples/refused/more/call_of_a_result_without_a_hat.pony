class C
  fun iso use_up() => None
primitive Make
  fun make(): C iso => recover C end
actor Main
  new create(env: Env) =>
    Make.make().use_up()
