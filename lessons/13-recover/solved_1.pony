class Page
  var text: String = ""

actor Main
  new create(env: Env) =>
    let page: Page iso = recover iso
      let draft: Page ref = Page
      draft.text = "chapter one"
      let done: Page ref = draft
      done
    end
    page.text = page.text + ", the end"
    env.out.print(page.text)
