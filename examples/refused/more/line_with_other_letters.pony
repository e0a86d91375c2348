actor Main
  new create(env: Env) =>
    "é"; not "été"
