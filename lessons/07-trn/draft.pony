class Page
  var text: String = ""

class Preview
  let _page: Page box

  new create(page: Page box) =>
    _page = page

  fun line(): String =>
    "preview: " + _page.text

actor Shop
  new create(out: OutStream, page: Page val) =>
    out.print("for sale: " + page.text)

actor Main
  new create(env: Env) =>
    let draft: Page trn = Page
    let preview: Preview ref = Preview(draft)
    draft.text = "a first try"
    env.out.print(preview.line())
    draft.text = "the end"
    let printed: Page val = consume draft
    Shop(env.out, printed)
    env.out.print(preview.line())
