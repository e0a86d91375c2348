/* What all pages share: the frame, the theme, the keys, the panel, and the test of itself. */

const root = document.documentElement;
const data = JSON.parse(document.getElementById("data").textContent);
const NARROW = "(max-width: 760px)";

/** The words after # in the address, as names and values. */
function wishes() {
  return Object.fromEntries(location.hash.slice(1).split("&").map((it) => [...it.split("="), ""].slice(0, 2)));
}

/** An element with a class, a text and children. Texts of a source come in by textContent alone. */
function element(name, kind, ...children) {
  const made = document.createElement(name);
  if (kind) made.className = kind;
  made.append(...children.filter((it) => it !== null && it !== undefined));
  return made;
}

/** An element of a picture, with its attributes. */
function drawn(name, attributes, ...children) {
  const made = document.createElementNS("http://www.w3.org/2000/svg", name);
  for (const [key, value] of Object.entries(attributes)) made.setAttribute(key, value);
  made.append(...children);
  return made;
}

function button(kind, text, act, label) {
  const made = element("button", kind, text);
  made.type = "button";
  if (label) made.setAttribute("aria-label", label);
  made.addEventListener("click", act);
  return made;
}

/** Control bytes as their pictures, so that none of them acts. */
function visible(text) {
  return text.replace(/\r(?=\n)|\r$/g, "").replace(/[\x00-\x08\x0b-\x1f\x7f]/g, (it) =>
    it === "\x7f" ? "\u2421" : String.fromCharCode(0x2400 + it.charCodeAt(0)));
}

/** A number of things, in words. */
function count(number, one, many) {
  return `${number.toLocaleString("en").replace(/,/g, "\u202f")} ${number === 1 ? one : many}`;
}

function setTheme(name) {
  root.dataset.theme = name;
}

setTheme(wishes().theme || (matchMedia("(prefers-color-scheme: dark)").matches ? "dark" : "light"));

/** The sums of differences: what columns of numbers are kept as. */
function sums(differences) {
  const found = new Int32Array(differences.length);
  let sum = 0;
  for (let i = 0; i < found.length; i++) found[i] = sum += differences[i];
  return found;
}

const picture = element("div");
const panel = element("aside");
const handle = button("", "", () => {
  document.body.classList.toggle("tall");
  handle.setAttribute("aria-expanded", document.body.classList.contains("tall"));
}, "more or less of this panel");
const body = element("div");

/** Makes the head and the two parts of the page. `facts` is a list of elements and texts after the name. */
function frame(what, facts, group, keys) {
  const help = notes(keys);
  picture.id = "picture";
  picture.tabIndex = 0;
  picture.setAttribute("role", "group");
  picture.setAttribute("aria-label", what);
  panel.id = "panel";
  panel.setAttribute("aria-label", "what is shown");
  handle.id = "handle";
  handle.setAttribute("aria-expanded", "false");
  body.setAttribute("aria-live", "polite");
  panel.append(handle, body);
  const tools = element("div", "group tools",
    button("tool", "?", () => help.showModal(), "keys"),
    button("tool", "\u25d0", () => setTheme(root.dataset.theme === "dark" ? "light" : "dark"), "light or dark"));
  const name = element("code", "", visible(data.name));
  const title = element("h1", "", what + " ", name);
  title.title = `${what} ${visible(data.name)}`;
  document.body.append(
    element("header", "", title, element("span", "facts", ...facts), group, element("span", "space"), tools),
    element("main", "", picture, panel), help);
  document.title = `${what} ${visible(data.name)}`;
}

/** The keys and signs of a page, as a dialog. */
function notes(keys) {
  const list = element("dl");
  for (const [key, does] of keys) list.append(element("dt", "", key), element("dd", "", does));
  const made = element("dialog", "", element("h2", "", "Keys"), list);
  made.append(button("tool", "close", () => made.close()));
  return made;
}

/** Puts something new into the panel. */
function show(...parts) {
  body.replaceChildren(...parts.filter((it) => it !== null && it !== undefined));
  panel.scrollTop = 0;
}

function heading(text) {
  return element("h2", "", text);
}

function paragraph(text) {
  return element("p", "", text);
}

/** A text in which what stands between backquotes is code. */
function withCode(kind, word, text) {
  const made = element("p", kind, word ? element("b", "", word) : null, word ? " " : "");
  text.split("`").forEach((part, i) => made.append(i % 2 ? element("code", "", visible(part)) : visible(part)));
  return made;
}

/** The card of a refusal: its line, and the lines of the explanation. */
function card(head, lines) {
  const made = element("div", "card", element("p", "head", visible(head)));
  made.setAttribute("role", "note");
  for (const [word, words] of lines) made.append(withCode(`of-${word.split(" ")[0].replace("rules", "rule")}`, word, words));
  return made;
}

/** The keys of a page, while no field is written in and no dialog is open. */
function onKeys(act) {
  addEventListener("keydown", (event) => {
    if (event.ctrlKey || event.metaKey || event.altKey || event.target.closest?.("input, dialog")) return;
    if (event.key === "?") document.querySelector("dialog").showModal();
    else if (!act(event.key, event)) return;
    event.preventDefault();
  });
}

/** Draws again if the picture gets another size. */
function onResize(draw) {
  let width = picture.clientWidth, height = picture.clientHeight;
  new ResizeObserver(() => {
    if (width === picture.clientWidth && height === picture.clientHeight) return;
    width = picture.clientWidth;
    height = picture.clientHeight;
    draw();
  }).observe(picture);
}

function press(key) {
  document.body.dispatchEvent(new KeyboardEvent("keydown", { key, bubbles: true, cancelable: true }));
}

function fail(message) {
  throw new Error(message);
}

/** What every page has to keep while it walks itself. */
function checkFrame() {
  if (document.scrollingElement.scrollWidth > innerWidth) fail("the page is wider than the window");
  const tools = [...document.querySelectorAll(".tool")];
  if (tools.length < 2) fail("a tool is missing");
  const before = root.dataset.theme;
  tools.find((it) => it.textContent === "\u25d0").click();
  if (root.dataset.theme === before) fail("the theme stays");
  setTheme(before);
  press("?");
  const dialog = document.querySelector("dialog");
  if (!dialog.open) fail("the keys are not shown");
  dialog.close();
  if (matchMedia(NARROW).matches) {
    const low = panel.getBoundingClientRect().height;
    handle.click();
    const tall = panel.getBoundingClientRect().height;
    handle.click();
    if (!(tall > low)) fail("the handle does nothing");
    if (low > innerHeight * .47) fail("the panel hides the picture");
  }
}

/** Notes when the page was laid out, in milliseconds after it was begun. */
addEventListener("load", () => {
  if (root.offsetHeight) root.dataset.drawn = Math.round(performance.now());
});

/** Walks the page if it is asked to, and notes how many things were looked at, or the first error. */
function testItself(walk) {
  if (wishes().selftest === undefined) return;
  let error = null;
  addEventListener("error", (event) => { error ??= event.message; });
  addEventListener("securitypolicyviolation", (event) => { error ??= `policy: ${event.violatedDirective}`; });
  setTimeout(() => {
    try {
      checkFrame();
      const looked = walk();
      root.dataset.selftest = error ? `error: ${error}` : `ok ${looked}`;
    } catch (thrown) {
      root.dataset.selftest = `error: ${thrown.message} ${(thrown.stack || "").split("\n")[1] || ""}`;
    }
  }, 0);
}
