/* The panel, the keys and the page of who sends what. */

const AT_A_TIME = 200;

/* The panel. */
function boxButton(box, name) {
  return button("link code", name ?? boxes[box], () => hold({ box }));
}

function messageButton(m) {
  return button("link code", visible(messageName(m)), () => hold({ box: messages[m][MESSAGE.box], message: m }));
}

function pairLine(box, m) {
  return element("div", "line code", boxButton(box), " sends ", messageButton(m));
}

function neverLine(m) {
  return element("div", "line code", element("span", "none", "never "), messageButton(m));
}

/** A list of lines, so many at a time. `each` calls its argument for each line until it gives false. */
function lines(each, none) {
  const made = element("div", "lines");
  let shown = 0;
  const more = button("tool", "", () => add());
  function add() {
    const upTo = shown + AT_A_TIME, found = [];
    let number = 0, rest = 0;
    each((build) => {
      if (number >= shown && number < upTo) found.push(build());
      number++;
      if (number > upTo) rest++;
    });
    shown = Math.min(number, upTo);
    more.remove();
    made.append(...found);
    more.textContent = `${Math.min(rest, AT_A_TIME)} more of ${rest.toLocaleString("en").replace(/,/g, "\u202f")}`;
    if (rest) made.append(more);
  }
  add();
  if (!shown) made.append(paragraph(none));
  return made;
}

function pairsOf(wanted) {
  return (take) => { for (const [box, row] of sentBy) for (const m of row) if (wanted(box, m)) take(() => pairLine(box, m)); };
}

function about(it) {
  if (it.message !== undefined) return aboutMessage(it.message);
  const { box } = it;
  const kind = isNeverMade(box) ? `${data.kinds[box]}, never made in any run` : data.kinds[box];
  const own = sentBy.get(box) || [];
  const found = [heading("Entity"), element("p", "big code", boxes[box]), paragraph(kind)];
  found.push(heading("May send"), lines((take) => { for (const m of own) take(() => pairLine(box, m)); }, "It sends nothing."));
  found.push(heading("May be sent"), lines((take) => {
    for (const m of messagesOf[box]) for (const from of sendersOf[m]) take(() => pairLine(from, m));
  }, "Nothing is sent to it."));
  const dull = messagesOf[box].filter((m) => never.has(m));
  if (dull.length) found.push(heading("Never sent"), lines((take) => dull.forEach((m) => take(() => neverLine(m))), ""));
  return found;
}

function aboutMessage(m) {
  const found = [heading(constructors.has(m) ? "Message of a constructor" : "Message"), element("p", "big code", messageName(m))];
  if (never.has(m)) found.push(paragraph("It is sent in no run, whatever the schedule."));
  else found.push(paragraph("May be sent by:"), lines((take) => sendersOf[m].forEach((box) => take(() => pairLine(box, m))), "nobody"));
  return found;
}

let sought = "";

function atRest() {
  const found = [heading("Reading it"), paragraph("An arrow says that a method of the one entity may send the message of the other: in some "
    + "run, as far as types show. A message in grey is sent in no run, whatever the schedule. A dashed entity is never made.")];
  if (!whole && boxes.length) found.push(paragraph(`There are ${boxes.length} entities, so the picture shows one of them and its `
    + "neighbours: who sends to it on the left, and what it sends on the right."));
  if (!boxes.length) return [...found, paragraph("In this program nothing is sent, and nothing could be.")];
  const field = element("input"), list = element("div");
  field.id = "find";
  field.type = "search";
  field.placeholder = "entity or message";
  field.setAttribute("aria-label", "find an entity or a message");
  field.value = sought;
  const fill = () => {
    sought = field.value;
    const word = sought.trim().toLowerCase();
    const boxHas = boxes.map((it) => it.toLowerCase().includes(word));
    const messageHas = messages.map((_, m) => messageName(m).toLowerCase().includes(word));
    const pairs = pairsOf((box, m) => boxHas[box] || messageHas[m]);
    list.replaceChildren(lines((take) => {
      pairs(take);
      for (const m of data.never) if (messageHas[m]) take(() => neverLine(m));
    }, "No line has this word."));
  };
  field.addEventListener("input", fill);
  fill();
  found.push(heading("Find"), field, list);
  const hidden = data.never_made.filter((it) => !boxes.includes(it));
  const hiddenLines = (take) => hidden.forEach((it) => take(() => element("div", "line code", it)));
  if (hidden.length) found.push(heading("Never made, and without an arrow"), lines(hiddenLines, ""));
  return found;
}

/* Keys. */
function zoom(by) {
  scale = Math.max(.3, Math.min(3, scale * by));
  draw();
}

/** Boxes in the order in which they are read: layer by layer. */
function readingOrder() {
  return [...scene.placed].sort((a, b) => (a.x - b.x) || (a.y - b.y)).map((it) => it.box);
}

function nextBox(way) {
  const order = readingOrder(), now = chosen();
  const place = now ? order.indexOf(now.box) + way : way > 0 ? 0 : order.length - 1;
  hold({ box: order[Math.max(0, Math.min(order.length - 1, place))] });
}

function nextRow(way) {
  const now = chosen();
  if (!now) return nextBox(way);
  const rows = scene.placed.find((it) => it.box === now.box)?.rows || [];
  const place = (now.message === undefined ? -1 : rows.indexOf(now.message)) + way;
  if (place < 0) hold({ box: now.box });
  else if (place < rows.length) hold({ box: now.box, message: rows[place] });
}

function key(name) {
  if (!boxes.length) return false;
  switch (name) {
    case "ArrowRight": nextBox(1); return true;
    case "ArrowLeft": nextBox(-1); return true;
    case "ArrowDown": nextRow(1); return true;
    case "ArrowUp": nextRow(-1); return true;
    case "+": case "=": zoom(1.25); return true;
    case "-": zoom(.8); return true;
    case "/":
      hold(null);
      document.getElementById("find").focus();
      return true;
    case "Escape":
      hovered = null;
      document.body.classList.remove("tall");
      hold(null);
      return true;
  }
  return false;
}

/* The page. */
const facts = [count(boxes.length, "entity", "entities"), count(data.pairs, "message that may be sent", "messages that may be sent"),
  `${data.never.length} never sent, over every run`];
frame("Who sends what in", [facts.join(" · ")],
  element("div", "group", button("tool", "\u2212", () => zoom(.8), "smaller"), button("tool", "+", () => zoom(1.25), "larger")), [
    ["→ ←", "the next and the previous entity"], ["↓ ↑", "its messages"], ["+ −", "larger and smaller"], ["/", "find"], ["Esc", "let go"],
    ["click", "hold an entity or a message: its arrows stay"], ["?", "these keys"],
  ]);
picture.append(board);
picture.classList.add("centred");
board.setAttribute("role", "img");
board.setAttribute("aria-label", "entities and the messages that they may send");
if (!boxes.length) board.replaceWith(paragraph("Nothing is sent in this program."));
draw();
hold(null);
{
  const wished = wishes().hold;
  const m = messages.findIndex((_, m) => messageName(m) === wished), box = boxes.indexOf(wished);
  if (m >= 0) hold({ box: messages[m][MESSAGE.box], message: m });
  else if (box >= 0) hold({ box });
}
onResize(draw);
board.addEventListener("mousemove", (event) => hover(at(event)));
board.addEventListener("mouseleave", () => hover(null));
board.addEventListener("click", (event) => {
  const it = at(event);
  hold(sameAs(it, held) ? null : it, "pointer");
});
onKeys(key);

/** Walks the page: each box and message is held, each key is pressed, and something is looked for. */
testItself(() => {
  let looked = 0;
  if (!boxes.length) return 1;
  if (whole && scene.arrows.length !== data.pairs) fail("a pair has no arrow");
  for (const [, made] of arrowParts) if (!/^[-MLCQ0-9. ]+$/.test(made.getAttribute("d"))) fail("an arrow has no path");
  const step = Math.max(1, Math.ceil(boxes.length / 150));
  for (let box = 0; box < boxes.length; box += step, looked++) {
    hold({ box });
    if (body.querySelector(".big").textContent !== boxes[box]) fail(`box ${box} is not in the panel`);
    if (boxParts.find(([it]) => it === box)[1].classList.contains("fade")) fail(`box ${box} fades while it is held`);
    for (const m of messagesOf[box].slice(0, 20)) {
      hold({ box, message: m });
      if (body.querySelector(".big").textContent !== messageName(m)) fail(`message ${m} is not in the panel`);
      if (whole && scene.arrows.filter((it) => it.m === m).length !== sendersOf[m].length) fail(`message ${m} lacks an arrow`);
      looked++;
    }
  }
  for (const name of ["Escape", "ArrowRight", "ArrowRight", "ArrowDown", "ArrowUp", "ArrowLeft", "+", "-", "/", "Escape"]) { press(name); looked++; }
  if (held) fail("Esc does not let go");
  const frame = board.getBoundingClientRect(), zoom = frame.width / scene.width, one = scene.placed[0];
  const point = { bubbles: true, clientX: frame.left + (one.x + 10) * zoom, clientY: frame.top + (one.y + 10) * zoom };
  board.dispatchEvent(new MouseEvent("mousemove", point));
  if (hovered?.box !== one.box) fail("the pointer shows nothing");
  board.dispatchEvent(new MouseEvent("click", point));
  if (held?.box !== one.box) fail("a click holds nothing");
  press("Escape");
  const field = document.getElementById("find");
  field.value = "no line has this word";
  field.dispatchEvent(new Event("input"));
  if (body.querySelectorAll(".line").length) fail("something is found that is not there");
  field.value = boxes[0];
  field.dispatchEvent(new Event("input"));
  if (!body.querySelectorAll(".line").length) fail("nothing is found");
  if (document.querySelectorAll("*").length > 7500) fail("there are too many elements");
  return looked + 2;
});
