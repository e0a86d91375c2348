class Page
  var text: String = ""

actor Main
  new create(env: Env) =>
    let draft: Page iso = Page
    let page: Page val = recover val
      draft.text = "chapter one"
      consume draft
    end
    env.out.print(page.text)
