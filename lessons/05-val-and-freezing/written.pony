class Menu
  var soup: String = ""

  fun line(): String =>
    "soup of the day: " + soup

actor Guest
  new create(out: OutStream, menu: Menu val) =>
    out.print(menu.line())

actor Main
  new create(env: Env) =>
    let draft: Menu iso = Menu
    draft.soup = "leek"
    let menu: Menu val = consume draft
    Guest(env.out, menu)
    Guest(env.out, menu)
    env.out.print(menu.line())
    menu.soup = "pea"
