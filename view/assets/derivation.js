/* The panel, the keys and the page of a derivation over its source. */

const SHOWN_LINES = 4, SHOWN_LENGTH = 600;

/* The panel. */

function pill(type, kind) {
  const form = formOf(type);
  return element("span", `pill code ${kind || ""} ${classOf(form)}${form.endsWith("^") ? " new" : ""}`, typeWords(type));
}

/** An expression's text: its first lines, without their common indentation. */
function shownText(n) {
  if (isAdded(n)) return addedText(n);
  const whole = text.slice(nodeStart[n], Math.min(nodeEnd[n], nodeStart[n] + SHOWN_LENGTH));
  const lines = whole.split("\n");
  const indent = Math.min(...lines.slice(1).filter((it) => it.trim()).map((it) => it.match(/^[ \t]*/)[0].length), 1000);
  const cut = lines.slice(0, SHOWN_LINES).map((it, i) => (i ? it.slice(indent) : it));
  const more = lines.length > SHOWN_LINES || nodeEnd[n] - nodeStart[n] > SHOWN_LENGTH;
  return visible(cut.join("\n")) + (more ? " …" : "");
}

function addedText(n) {
  const kind = kindOf(n);
  if (kind === "this") return "this (not written)";
  if (kind === "prim") return `${entities[Number(named(n))][ENTITY.name]} (not written)`;
  return `${data.meanings.kinds[kind]} (not written)`;
}

function partText(n) {
  return isAdded(n) ? addedText(n) : visible(text.slice(nodeStart[n], Math.min(nodeEnd[n], nodeStart[n] + 160)).replace(/\s+/g, " "));
}

function part(n) {
  const made = button("line part", "", () => hold(n));
  const code = element("code", "", partText(n));
  code.title = code.textContent;
  made.append(code, known ? pill(typeOf(n)) : "");
  return made;
}

function masksOf(n) {
  return data.nodes.mask[data.nodes.masks[n]].split(" ").map((it) => BigInt(`0x${it}`));
}

function chip(name, capability, state) {
  const said = element("span", "name", (state === "come" ? "+ " : "") + name);
  const made = element("span", `chip ${state}`, said, capability ? element("span", `kind ${classOf(capability)}`, capability) : null);
  made.title = name + { come: ": from here on", gone: ": no longer", unset: ": not set yet", "": "" }[state];
  return made;
}

/** A chip for each slot or field that a mask has before the node or after it. */
function chips(names, before, after, all) {
  const made = element("div", "chips");
  names.forEach(([name, capability], i) => {
    const was = before >> BigInt(i) & 1n, is = after >> BigInt(i) & 1n;
    if (was || is || all) made.append(chip(name, capability, was && is ? "" : is ? "come" : was ? "gone" : "unset"));
  });
  return made.childNodes.length ? made : paragraph("none");
}

function liveNames(n) {
  const [first, after] = slotsOf(methodOf[n]), names = [];
  for (let s = first; s < after; s++) names.push([slotName(s), formOf(slotType(s))]);
  const [before, , later] = masksOf(n);
  return [heading("Live names"), chips(names, before, later, false)];
}

function setFields(n) {
  const method = methods[methodOf[n]];
  if (!["new", "spawn"].includes(method[METHOD.kind]) || data.nodes.depth[n] || !fieldsOf[method[METHOD.entity]].length) return [];
  const names = fieldsOf[method[METHOD.entity]].map((f) => [fields[f][FIELD.name], fields[f][FIELD.capability]]);
  const [, before, , later] = masksOf(n);
  return [heading("Fields set"), chips(names, before, later, true)];
}

function way(n) {
  const made = element("nav", "path"), path = [];
  made.setAttribute("aria-label", "what it is inside of");
  for (let it = n; it >= 0; it = parent[it]) path.unshift(it);
  path.forEach((it, i) => {
    const step = button("", kindOf(it) === "body" ? methodName(methodOf[it]) : data.meanings.kinds[kindOf(it)], () => hold(it));
    if (it === n) step.setAttribute("aria-current", "true");
    made.append(i ? "\u203a" : "", step);
  });
  return [heading("Inside"), made];
}

/** The other nodes at its place, if there are any, to choose. */
function others(n) {
  const method = methods[methodOf[n]];
  const group = groups.get(method[METHOD.start]);
  const taken = group.length > 1;
  const choices = taken ? group : isInitial(n) ? constructors[method[METHOD.entity]] : [];
  if (choices.length < 2) return [];
  const made = element("div", "choice");
  for (const m of choices) {
    const name = taken ? entities[methods[m][METHOD.entity]][ENTITY.name] : methodName(m);
    const choice = button("", name, () => hold(likeIn(n, m)));
    choice.setAttribute("aria-pressed", String(m === methodOf[n]));
    made.append(choice);
  }
  return [heading(taken ? "Taken over by" : "In each constructor"), made];
}

function lineOf(n) {
  const rule = data.nodes.rules[data.nodes.rule[n]];
  const line = `n ${rule} ${typeOf(n)} ${data.nodes.mask[data.nodes.masks[n]]}`;
  return [heading("In the derivation"), element("p", "raw code", `line ${data.slots.kind.length + n + 2}, node ${n}: ${line}`)];
}

function aboutNode(n) {
  const parts = children(n), kind = kindOf(n);
  const found = [...refusal(), element("pre", "text code", shownText(n))];
  if (known) {
    const rule = data.nodes.rules[data.nodes.rule[n]], type = typeOf(n);
    found.push(heading("Type"), pill(type, "large"), paragraph(data.meanings.capabilities[formOf(type)]),
      heading("Rule"), element("p", "big code", rule), paragraph(data.meanings.rules[rule] ?? ""));
  } else {
    found.push(heading("What it is"), element("p", "big", data.meanings.kinds[kind]), paragraph("A refused source has no derivation, so no type stands here."));
  }
  if (parts.length) found.push(heading(parts.length > 1 ? "Parts, in order of evaluation" : "Part"), ...parts.map(part));
  if (known) found.push(...liveNames(n), ...setFields(n));
  found.push(...way(n), ...others(n));
  if (known) found.push(...lineOf(n));
  return found;
}

function refusal() {
  return data.refusal ? [card(data.refusal.head, data.refusal.lines)] : [];
}

/** How many expressions have a type of each capability. */
function tally() {
  const counts = new Map();
  for (let n = 0; n < size; n++) counts.set(nodeClass(n), (counts.get(nodeClass(n)) || 0) + 1);
  const made = element("div");
  for (const capability of CAPABILITIES) if (counts.has(capability)) {
    const line = element("div", "part", element("span", `pill code ${capability}`, capability), element("p", "", data.meanings.capabilities[capability]));
    made.append(line);
  }
  return made;
}

function atRest() {
  if (!size) return data.refusal ? refusal() : [heading("Reading it"), paragraph("There is no expression in this source.")];
  const say = known
    ? "Each name, literal and call has the colour of its capability. Choose an expression: its type, the rule that it meets, its parts "
      + "and the names that are live there are shown here. Choose it again to go out to the expression around it."
    : "Choose an expression to see its parts and what it is inside of.";
  return [...refusal(), heading("Reading it"), paragraph(say), ...(known ? [heading("Capabilities"), tally()] : [])];
}

/* The page. */

function legend() {
  const made = element("div", "group");
  made.setAttribute("role", "group");
  made.setAttribute("aria-label", "show one capability alone");
  for (const capability of CAPABILITIES) {
    const one = button(`pill code ${capability}`, capability, () => {
      const only = source.dataset.only === capability ? undefined : capability;
      if (only) source.dataset.only = only; else delete source.dataset.only;
      for (const it of made.children) it.setAttribute("aria-pressed", String(it.textContent === only));
    });
    one.setAttribute("aria-pressed", "false");
    made.append(one);
  }
  return made;
}

function toRefusal() {
  if (!data.refusal?.place) return false;
  reveal(data.refusal.place[0], .3);
  return true;
}

function key(name) {
  const at = held >= 0 ? held : hovered;
  const next = (step) => {
    let n = at < 0 ? (step > 0 ? 0 : size - 1) : at + step;
    return n >= 0 && n < size ? n : at;
  };
  switch (name) {
    case "ArrowRight": if (size) hold(next(1)); return true;
    case "ArrowLeft": if (size) hold(next(-1)); return true;
    case "ArrowUp": if (at >= 0 && parent[at] >= 0) hold(parent[at]); return true;
    case "ArrowDown": if (at >= 0 && data.nodes.children[at]) hold(children(at)[0]); return true;
    case "r": return toRefusal();
    case "Escape":
      hovered = -1;
      document.body.classList.remove("tall");
      hold(-1);
      return true;
  }
  return false;
}

const verdict = element("b", data.verdict, data.verdict);
frame("Derivation of", [verdict, ` · ${count(data.lines, "line", "lines")} · ${count(size, "expression", "expressions")}`], legend(), [
  ["→ ←", "the next and the previous expression, in order of evaluation"], ["↑", "out"], ["↓", "to the first part"],
  ["r", "to the place of the refusal"], ["Esc", "let go"], ["click", "hold an expression; again: the one around it"], ["?", "these keys"],
]);
if (text || !data.refusal) picture.append(source);
else picture.append(card(data.refusal.head, data.refusal.lines), paragraph("The source is too long to be shown."));
rowHeight = parseFloat(getComputedStyle(root).getPropertyValue("--row"));
sweep();
makeChunks();
refresh();
hold(-1);
toRefusal();
if (wishes().hold !== undefined && Number(wishes().hold) < size) hold(Number(wishes().hold));

let waiting = false;
picture.addEventListener("scroll", () => {
  if (waiting) return;
  waiting = true;
  requestAnimationFrame(() => { waiting = false; refresh(); });
});
onResize(() => {
  rowHeight = parseFloat(getComputedStyle(root).getPropertyValue("--row"));
  refresh();
});
source.addEventListener("mousemove", (event) => hover(event.target.token ? event.target.token.node : -1));
source.addEventListener("mouseleave", () => hover(-1));
source.addEventListener("click", (event) => {
  if (getSelection().toString()) return;
  const n = event.target.token ? event.target.token.node : -1;
  hold(n < 0 ? -1 : clicked(n), "pointer");
});
onKeys(key);
addEventListener("beforeprint", () => chunks.forEach(fill));
addEventListener("afterprint", refresh);

/** Walks the page: each expression, each key, each pill, each choice, a pointer over each token that is shown. */
testItself(() => {
  let looked = 0;
  const most = 600, step = Math.max(1, Math.ceil(size / most));
  for (let n = 0; n < size; n += step, looked++) {
    hold(n);
    if (known && body.querySelector(".pill.large").textContent !== typeWords(typeOf(n))) fail(`node ${n} has another type in the panel`);
    if (!isAdded(n) && !source.querySelector(".mark")) fail(`node ${n} is not marked`);
    if (children(n).some((it) => parent[it] !== n)) fail(`node ${n} is not the parent of its parts`);
    for (const it of [...body.querySelectorAll(".choice button")]) { it.click(); looked++; }
  }
  for (const name of ["Escape", "ArrowRight", "ArrowRight", "ArrowLeft", "ArrowUp", "ArrowDown", "r", "Escape"]) { press(name); looked++; }
  if (held >= 0) fail("Esc does not let go");
  if (size) {
    press("ArrowRight");
    if (held !== 0) fail("the first node is not held");
    press("ArrowUp");
    if (held !== parent[0]) fail("there is no way out");
    press("Escape");
  }
  for (const it of [...document.querySelectorAll("header .pill")]) {
    it.click();
    if (source.dataset.only !== it.textContent) fail("a pill does nothing");
    it.click();
    looked++;
  }
  for (const it of [...source.querySelectorAll("[class]")].filter((it) => it.token && it.token.node >= 0).slice(0, 300)) {
    it.dispatchEvent(new MouseEvent("mousemove", { bubbles: true }));
    if (hovered !== it.token.node) fail("the pointer shows nothing");
    it.click();
    if (held < 0) fail("a click holds nothing");
    const inner = held;
    it.click();
    if (parent[inner] >= 0 && inner === held && outward(inner, inner) !== inner) fail("a second click does not go out");
    press("Escape");
    looked++;
  }
  if (data.refusal) {
    if (document.querySelector(".card")?.children.length !== 1 + data.refusal.lines.length) fail("the card has other lines");
    if (data.refusal.place && text && !source.querySelector(".wrong")) fail("the place is not marked");
    looked++;
  }
  for (const top of [0, .5, 1]) {
    picture.scrollTop = top * picture.scrollHeight;
    refresh();
    if (document.querySelectorAll("*").length > 7500) fail("there are too many elements");
    looked++;
  }
  picture.scrollTop = 0;
  return looked;
});
