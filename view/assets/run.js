/* The panel, the keys and the page of a run. */

const MOST_OBJECTS = 24, MOST_LINES = 500, MOST_CLOCK = 70;

/* The panel. */
function does(i) {
  switch (word[i]) {
    case TAKE: return `takes ${methodOf(i)}`;
    case SEND: return `sends ${actorWords(events.with[i])} ${methodOf(i)}`;
    case MAKE: return `makes ${actorWords(events.with[i])}`;
    case NEW: return `makes an object of ${objectOf(i)[1]}`;
    case READ: return `reads ${fieldName(i)}`;
    case WRITE: return `writes ${fieldName(i)}`;
  }
}

function dot(kind, colour) {
  const made = drawn("svg", { width: 22, height: 18, viewBox: "0 0 22 18", "aria-hidden": "true" }, sign(kind, 11, 9, colour));
  return made;
}

function objectLine(number, more) {
  return element("div", "sign-line", dot(WRITE, objectColour(number)), element("span", "code", objectWords(number) + (more || "")));
}

/** What an event has to do with others: the other end of its message, its object and field, its text. */
function particulars(i) {
  if (word[i] === NEW) return [objectLine(events.what[i])];
  if (word[i] >= READ) {
    const maker = Number(objectOf(i)[0].split(".")[0]);
    return [objectLine(events.what[i], `, field ${events.with[i]}`), paragraph(`made by ${actorWords(maker)}`)];
  }
  const found = [];
  if (printedAt.has(i)) found.push(element("pre", "printed code", visible(printedAt.get(i))));
  const end = other[i];
  if (end >= 0) {
    const words = word[i] === TAKE ? `sent at step ${place[end]} by ${actorWords(actorOf[end])}` : `taken at step ${place[end]}`;
    found.push(button("line link", words, () => hold(end)));
  } else found.push(paragraph(word[i] === TAKE ? "With this message the program begins." : "Nobody takes it in this run."));
  return found;
}

function clock(i) {
  const made = element("div", "clock"), there = actorsAt[i];
  let most = 1;
  for (let a = 0; a < there; a++) most = Math.max(most, clockAt(i, a));
  for (let a = 0; a < Math.min(there, MOST_CLOCK); a++) {
    const bar = element("i");
    bar.style.width = `${clockAt(i, a) / most * 100}%`;
    bar.style.background = objectColour(a);
    const name = element("code", "", a > 0 ? `${actorName(a)} ${a}` : actorName(a));
    name.title = actorWords(a);
    made.append(element("span", "", name), element("span", "grow", bar), element("b", "", String(clockAt(i, a))));
    bar.parentNode.style.alignItems = "center";
  }
  return made;
}

/** How the accesses of other actors to the same field are ordered with this one, if one of the two writes. */
function conflicts(i) {
  let before = 0, later = 0, unordered = 0;
  for (const it of accesses.get(fieldKey(i))) {
    if (actorOf[it] === actorOf[i] || (word[it] === READ && word[i] === READ)) continue;
    if (upTo(it, i)) before++;
    else if (upTo(i, it)) later++;
    else unordered++;
  }
  return { before, later, unordered };
}

function sameField(i) {
  if (word[i] < READ) return [];
  const { before, later, unordered } = conflicts(i), all = before + later + unordered;
  const verb = all === 1 ? "access that conflicts" : "accesses that conflict";
  const said = all ? `${all} ${verb}: ${before} before, ${later} after, ${unordered} not ordered` : "no access that conflicts";
  return [heading("Same field, other actors"), paragraph(said)];
}

function aboutEvent(i) {
  return [heading(`Step ${place[i]}`), element("p", "big", `${actorWords(actorOf[i])} ${does(i)}`), ...particulars(i),
    heading("Clock: what it knows"), clock(i),
    paragraph("The number of steps of each actor that are this one or come before it. What stays in the picture comes before; what is "
      + "faint comes later, or is not ordered with it."),
    ...sameField(i)];
}

const SIGNS = [[WRITE, "writes a field (colour: the object)"], [READ, "reads a field"], [NEW, "makes an object"], [SEND, "sends a message"],
  [MAKE, "makes an actor"], [TAKE, "takes a message"]];

/** The signs of this run. */
function legendLines() {
  return SIGNS.filter(([kind]) => word.includes(kind)).map(([kind, words]) => element("div", "sign-line", dot(kind, "var(--object-1)"), words));
}

function atRest() {
  if (ended) return [heading("The run"), paragraph("This run ends without a text that could be drawn.")];
  const found = size ? [heading("Signs"), ...legendLines()] : [paragraph("In this run no message is taken, so nothing is drawn.")];
  if (data.objects.length) found.push(heading("Objects"), ...data.objects.slice(0, MOST_OBJECTS).map((it, number) => objectLine(number)));
  if (data.objects.length > MOST_OBJECTS) found.push(paragraph(`and ${data.objects.length - MOST_OBJECTS} more`));
  found.push(heading("Printed"));
  if (data.printed.length) {
    const lines = data.printed.slice(0, MOST_LINES).map(visible).join("\n");
    found.push(element("pre", "printed code", lines + (data.printed.length > MOST_LINES ? `\nand ${data.printed.length - MOST_LINES} more lines` : "")));
  } else found.push(paragraph("nothing"));
  found.push(heading("Numbers"), element("p", "raw code", data.numbers));
  return found;
}

/* Keys. */
function zoom(by) {
  const middle = (picture.scrollLeft + picture.clientWidth / 2) / Math.max(1, width);
  step = Math.max(LEAST_STEP, Math.min(MOST_STEP, step * by));
  draw();
  picture.scrollLeft = middle * width - picture.clientWidth / 2;
  if (held >= 0) reveal(held);
}

/** The event in the nearest lane above or below that has one, nearest in time. */
function nearLane(i, way) {
  for (let lane = actorOf[i] + way; lane >= 0 && lane < lanes; lane += way) {
    for (let far = 1; far < size; far++) {
      if (i - far >= 0 && actorOf[i - far] === lane) return i - far;
      if (i + far < size && actorOf[i + far] === lane) return i + far;
    }
  }
  return i;
}

function key(name) {
  const at = held >= 0 ? held : hovered;
  switch (name) {
    case "ArrowRight": if (size) hold(Math.min(size - 1, at < 0 ? first : at + 1)); return true;
    case "ArrowLeft": if (size) hold(Math.max(0, at < 0 ? after - 1 : at - 1)); return true;
    case "ArrowUp": if (at >= 0) hold(nearLane(at, -1)); return true;
    case "ArrowDown": if (at >= 0) hold(nearLane(at, 1)); return true;
    case "m": if (at >= 0 && other[at] >= 0) hold(other[at]); return true;
    case "+": case "=": zoom(1.25); return true;
    case "-": zoom(.8); return true;
    case "PageDown": if (!windowed) return false; moveWindow(first + WINDOW); return true;
    case "PageUp": if (!windowed) return false; moveWindow(first - WINDOW); return true;
    case "Escape":
      hovered = -1;
      document.body.classList.remove("tall");
      hold(-1);
      return true;
  }
  return false;
}

/* The page. */
const tools = element("div", "group", button("tool", "\u2212", () => zoom(.8), "narrower"), button("tool", "+", () => zoom(1.25), "wider"));
if (windowed) tools.append(button("tool", "\u2190", () => moveWindow(first - WINDOW), "the events before"),
  button("tool", "\u2192", () => moveWindow(first + WINDOW), "the events after"));
const facts = ended
  ? [element("b", "refused", "ended")]
  : [element("b", "ordered", "ordered"), ` · ${count(lanes, "actor", "actors")} · ${count(size, "event", "events")}`,
    ` · ${count(data.accesses, "access", "accesses")}`];
frame("Run of", facts, ended ? element("div", "group") : tools, [
  ["→ ←", "the next and the previous event"], ["↑ ↓", "the nearest in another lane"], ["m", "along the message"],
  ["+ −", "wider and narrower"], ["Page ↑ ↓", "the events before and after, if a run has more than 2,000"], ["Esc", "let go"],
  ["click", "hold an event: what comes before it stays"], ["?", "these keys"],
]);
document.querySelector("h1").append(" by ", element("code", "", visible(data.by)));
document.querySelector("h1").title += ` by ${visible(data.by)}`;
document.title += ` by ${visible(data.by)}`;

function build() {
  corner.className = "corner";
  labels.className = "labels";
  axis.classList.add("axis");
  const grid = element("div", "lanes", corner, axis, labels, board);
  board.setAttribute("role", "img");
  board.setAttribute("aria-label", "a lane for each actor, with its events from left to right");
  if (windowed) {
    const whole = element("div", "strip", strip);
    picture.append(whole);
    const move = (event) => moveWindow(Math.round((event.clientX - strip.getBoundingClientRect().left) / strip.clientWidth * size - WINDOW / 2));
    strip.addEventListener("pointerdown", (event) => { strip.setPointerCapture(event.pointerId); move(event); });
    strip.addEventListener("pointermove", (event) => { if (event.buttons) move(event); });
  }
  picture.append(grid);
  arrange();
  if (!windowed && !matchMedia(NARROW).matches) step = fitted();
  draw();
  board.addEventListener("mousemove", (event) => hover(eventAt(event, 9)));
  board.addEventListener("mouseleave", () => hover(-1));
  board.addEventListener("click", (event) => {
    const i = eventAt(event, 18);
    hold(i === held ? -1 : i, "pointer");
  });
  onResize(draw);
  let before = step;
  addEventListener("beforeprint", () => {
    before = step;
    step = Math.max(LEAST_PRINTED_STEP, Math.min(step, PRINTED_WIDTH / (after - first + turns().length * .7)));
    draw();
  });
  addEventListener("afterprint", () => {
    step = before;
    draw();
  });
  new MutationObserver(() => { if (windowed) drawStrip(); }).observe(root, { attributeFilter: ["data-theme"] });
}

if (ended) picture.append(card(data.line, []));
else build();
hold(-1);
if (place.includes(Number(wishes().step))) hold(place.indexOf(Number(wishes().step)));
onKeys(key);

/** Walks the page: each event is held, all conflicts are looked through, each key is pressed. */
testItself(() => {
  let looked = 0;
  if (ended) return document.querySelector(".card .head").textContent === visible(data.line) ? 1 : fail("the line is not shown");
  const jump = Math.max(1, Math.ceil(size / 400));
  for (let i = 0; i < size; i += jump, looked++) {
    hold(i);
    if (!body.textContent.includes(`Step ${place[i]}`)) fail(`event ${i} is not in the panel`);
    if (signs[i - first].classList.contains("fade")) fail(`event ${i} fades while it is held`);
    if (other[i] >= 0 && word[i] === TAKE && !upTo(other[i], i)) fail(`the sending of event ${i} does not come before it`);
    if (ring.getAttribute("visibility") !== "visible") fail(`event ${i} has no ring`);
  }
  for (let i = 0; i < size; i += jump) if (word[i] >= READ && conflicts(i).unordered) fail(`event ${i} is not ordered with another access`);
  for (const name of ["Escape", "ArrowRight", "ArrowRight", "ArrowLeft", "ArrowDown", "ArrowUp", "m", "m", "+", "-", "PageDown", "PageUp", "Escape"]) {
    press(name);
    looked++;
  }
  if (held >= 0) fail("Esc does not let go");
  if (size) {
    const box = board.getBoundingClientRect();
    const point = { bubbles: true, clientX: box.left + x(first), clientY: box.top + y(actorOf[first]) };
    board.dispatchEvent(new MouseEvent("mousemove", point));
    if (hovered !== first) fail("the pointer shows nothing");
    board.dispatchEvent(new MouseEvent("click", point));
    if (held !== first) fail("a click holds nothing");
    board.dispatchEvent(new MouseEvent("click", point));
    if (held !== -1) fail("a second click does not let go");
    press("Escape");
  }
  if (labels.children.length !== lanes) fail("a lane is missing");
  if (document.querySelectorAll("*").length > 12000) fail("there are too many elements");
  return looked + 1;
});
