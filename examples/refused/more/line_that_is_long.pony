actor Main
  new create(env: Env) =>
    "aaaaaaaaaaaaaaaaaaaaaaaaaaaaaaaaaaaaaaaaaaaaaaaaaa"; "bbbbbbbbbbbbbbbbbbbbbbbbbbbbbbbbbbbbbbbbbbbbbbbbbb"; not "cccccccccccccccccccccccccccccccccccccccccccccccccccccccccccc"; "dddddddddddddddddddddddddddddddddddddddddddddddddddddddddddd"
