/* The drawing of a run: a lane for each actor, and signs, bars and arrows in them. */

const WHOLE_RUN = 2000, WINDOW = 1000;
const LEAST_LANE = 54, MOST_LANE = 150, AXIS = 34, STRIP = 46;
const LEAST_STEP = 6, COMMON_STEP = 12.5, MOST_STEP = 60, LEAST_FITTED_STEP = 10, MOST_FITTED_STEP = 34;
const PRINTED_WIDTH = 560, LEAST_PRINTED_STEP = 3;
const NAME_ROWS = 4, ROW_HEIGHT = 13, CHARACTER = 6.7;

/* Which events are drawn: all, or a window of them. */
let first = 0, after = Math.min(size, WHOLE_RUN);
const windowed = size > WHOLE_RUN;
if (windowed) after = WINDOW;
let step = COMMON_STEP, laneHeight = LEAST_LANE, labelWidth = 150;
let xs = new Float64Array(0), width = 0;
let held = -1, hovered = -1;

function x(i) { return xs[i - first]; }
function y(lane) { return lane * laneHeight + laneHeight / 2; }

/** The events from `first` on in rows of one actor each, as starts and ends. */
function turns() {
  const found = [];
  for (let i = first; i < after; ) {
    let end = i + 1;
    while (end < after && actorOf[end] === actorOf[i]) end++;
    found.push([i, end]);
    i = end;
  }
  return found;
}

function arrange() {
  const narrow = matchMedia(NARROW).matches;
  labelWidth = narrow ? 104 : 150;
  const room = picture.clientHeight - AXIS - (windowed ? STRIP : 0) - 16;
  laneHeight = Math.max(narrow ? 78 : LEAST_LANE, Math.min(narrow ? 84 : MOST_LANE, lanes ? room / lanes : MOST_LANE));
  if (lanes > 8) laneHeight = LEAST_LANE;
  xs = new Float64Array(after - first);
  let at = 24;
  for (const [from, end] of turns()) {
    for (let i = from; i < end; i++) { xs[i - first] = at; at += step; }
    at += step * .7;
  }
  width = Math.max(at + 24, picture.clientWidth - labelWidth);
}

/** The width of a step at which the whole run is in view, if that is wide enough. */
function fitted() {
  const rows = turns().length;
  const room = picture.clientWidth - labelWidth - 60;
  const fit = room / Math.max(1, after - first + rows * .7);
  return fit >= LEAST_FITTED_STEP ? Math.min(fit, MOST_FITTED_STEP) : COMMON_STEP;
}

/* Signs. */
function sign(kind, cx, cy, colour) {
  const r = 5.2;
  switch (kind) {
    case TAKE: return drawn("path", { d: `M${cx - 5} ${cy - 6.5}L${cx + 7} ${cy}L${cx - 5} ${cy + 6.5}Z`, fill: "var(--ink)" });
    case SEND: return drawn("rect", { x: cx - 4.2, y: cy - 4.2, width: 8.4, height: 8.4, fill: "var(--ink)" });
    case MAKE: return drawn("rect", { x: cx - 4, y: cy - 4, width: 8, height: 8, fill: "var(--card)", stroke: "var(--ink)", "stroke-width": 2 });
    case NEW: return drawn("path", { d: `M${cx} ${cy - 6}L${cx + 5} ${cy}L${cx} ${cy + 6}L${cx - 5} ${cy}Z`, fill: "var(--card)",
      stroke: colour, "stroke-width": 2 });
    case READ: return drawn("circle", { cx, cy, r: r - .8, fill: "var(--card)", stroke: colour, "stroke-width": 2 });
    case WRITE: return drawn("circle", { cx, cy, r: r + .3, fill: colour });
  }
}

function signOf(i) {
  return sign(word[i], x(i), y(actorOf[i]), word[i] >= NEW ? objectColour(events.what[i]) : "");
}

/** An arrow from a sending to its taking; the part that is drawn, if one of them is outside the window. */
function arrow(from, to) {
  const x1 = from >= first ? x(from) : -20, y1 = y(actorOf[from]);
  const x2 = to < after ? x(to) : width + 20, y2 = y(actorOf[to]);
  const dashed = word[from] === MAKE ? "4 4" : "none";
  let d;
  if (y1 === y2) d = `M${x1} ${y1 - 7}C${x1} ${y1 - 34} ${x2} ${y2 - 34} ${x2} ${y2 - 11}`;
  else {
    const way = y2 > y1 ? 1 : -1, half = Math.max(26, Math.abs(y2 - y1) * .55);
    d = `M${x1} ${y1 + way * 8}C${x1} ${y1 + way * half} ${x2} ${y2 - way * half} ${x2} ${y2 - way * 12}`;
  }
  return drawn("path", { d, fill: "none", stroke: "var(--edge)", "stroke-width": 1.4, "stroke-dasharray": dashed, "marker-end": "url(#tip)" });
}

function tip(id, colour) {
  return drawn("marker", { id, viewBox: "0 0 8 8", refX: 4, refY: 4, markerWidth: 7, markerHeight: 7, orient: "auto", markerUnits: "userSpaceOnUse" },
    drawn("path", { d: "M0 0L8 4L0 8Z", fill: colour }));
}

/** The names below the takings, in rows so that none covers another; a name that finds no row is left out. */
function namesBelow() {
  const found = [], ends = new Map();
  for (let i = first; i < after; i++) if (word[i] === TAKE) {
    const printed = printedAt.get(i);
    let name = printed === undefined ? methodOf(i) : `\u201c${visible(printed)}\u201d`;
    if (!name) continue;
    if (name.length > 24) name = `${name.slice(0, 23)}\u2026`;
    const lane = actorOf[i], length = name.length * CHARACTER;
    const left = Math.max(2, Math.min(x(i) - 4, width - length - 4));
    if (!ends.has(lane)) ends.set(lane, new Float64Array(Math.max(1, Math.min(NAME_ROWS, Math.floor((laneHeight / 2 - 14) / ROW_HEIGHT)))).fill(-1e9));
    const rows = ends.get(lane), row = rows.findIndex((it) => it + 6 < left);
    if (row < 0) continue;
    rows[row] = left + length;
    const made = drawn("text", { x: left, y: y(lane) + 24 + row * ROW_HEIGHT }, name);
    made.classList.add("below");
    found.push([i, made]);
  }
  return found;
}

/* The drawing. */
const corner = element("div"), axis = drawn("svg", {}), labels = element("div"), board = drawn("svg", {});
const strip = document.createElement("canvas");
let signs = [], arrows = [], bars = [], ring = null;

function draw() {
  arrange();
  const height = lanes * laneHeight;
  for (const [it, h] of [[axis, AXIS], [board, height]]) {
    it.setAttribute("width", width);
    it.setAttribute("height", h);
    it.setAttribute("viewBox", `0 0 ${width} ${h}`);
  }
  board.replaceChildren(drawn("defs", {}, tip("tip", "var(--edge)"), tip("tip-dark", "var(--ink)")));
  for (let lane = 0; lane < lanes; lane++) {
    board.append(drawn("rect", { x: 0, y: lane * laneHeight, width, height: laneHeight, fill: lane % 2 ? "var(--band)" : "var(--ground)" }),
      drawn("path", { d: `M0 ${y(lane)}H${width}`, stroke: "var(--line)", "stroke-width": 2 }));
  }
  drawTurns();
  drawMessages();
  signs = [];
  for (let i = first; i < after; i++) {
    const made = drawn("g", { class: "fades" }, signOf(i));
    signs.push(made);
    board.append(made);
  }
  for (const [i, made] of namesBelow()) signs[i - first].append(made);
  ring = drawn("circle", { r: 12, fill: "none", stroke: "var(--held)", "stroke-width": 3.5, visibility: "hidden" });
  board.append(ring);
  drawLabels();
  if (windowed) drawStrip();
  emphasise();
}

/** A soft bar for each row of events of one actor, and the place of the first of them above. */
function drawTurns() {
  axis.replaceChildren();
  bars = [];
  let free = -1e9;
  for (const [from, end] of turns()) {
    const lane = actorOf[from];
    const bar = drawn("rect", { x: x(from) - 9, y: y(lane) - 13, width: x(end - 1) - x(from) + 18, height: 26, rx: 8,
      fill: objectColour(lane), opacity: .17, class: "bar" });
    bars.push(bar);
    board.append(bar);
    if (x(from) - 6 < free) continue;
    const number = String(place[from]);
    axis.append(drawn("text", { x: x(from) - 6, y: 21, class: "faint" }, number));
    free = x(from) + number.length * 7.3 + 8;
  }
}

/** The messages that are sent or taken in the window. */
function drawMessages() {
  arrows = [];
  for (let i = first; i < after; i++) {
    if (other[i] < 0) continue;
    const [from, to] = word[i] === TAKE ? [other[i], i] : [i, other[i]];
    if (word[i] !== TAKE && to < after) continue;
    const made = arrow(from, to);
    made.classList.add("fades");
    arrows.push([to, made]);
    board.append(made);
  }
}

function drawLabels() {
  labels.replaceChildren();
  for (let lane = 0; lane < lanes; lane++) {
    const more = lane === 0 ? "the stream" : `actor ${lane}`;
    const label = element("div", "lane-label", element("b", "", actorName(lane)), element("small", "", more));
    label.title = actorWords(lane);
    label.style.height = `${laneHeight}px`;
    labels.append(label);
  }
  corner.style.width = labels.style.width = `${labelWidth}px`;
}

/** Which lanes have an event in which column of the strip: a row of flags for each lane. */
let columns = null;

function columnsOf(wide) {
  if (columns?.wide === wide) return columns.flags;
  const flags = new Uint8Array(lanes * wide);
  for (let i = 0; i < size; i++) flags[actorOf[i] * wide + Math.floor(i / size * wide)] = 1;
  columns = { wide, flags };
  return flags;
}

/** The whole run, a column of points for a row of events, with the window in it. */
function drawStrip() {
  const wide = Math.floor(Math.max(200, picture.clientWidth - labelWidth - 20)), ratio = devicePixelRatio || 1;
  strip.width = wide * ratio;
  strip.height = STRIP * ratio;
  strip.style.width = `${wide}px`;
  strip.style.height = `${STRIP}px`;
  strip.style.marginLeft = `${labelWidth}px`;
  const brush = strip.getContext("2d"), style = getComputedStyle(root), flags = columnsOf(wide);
  brush.scale(ratio, ratio);
  brush.fillStyle = style.getPropertyValue("--band");
  brush.fillRect(0, 0, wide, STRIP);
  const high = (STRIP - 10) / lanes;
  for (let lane = 0; lane < lanes; lane++) {
    brush.fillStyle = style.getPropertyValue(`--object-${lane % COLOURS}`);
    for (let at = 0; at < wide; at++) if (flags[lane * wide + at]) brush.fillRect(at, 5 + lane * high, 1, Math.max(1, high - .3));
  }
  brush.strokeStyle = style.getPropertyValue("--ink");
  brush.lineWidth = 2;
  const left = first / size * wide, right = after / size * wide;
  brush.strokeRect(Math.min(left, wide - 6) + 1, 1, Math.max(4, right - left - 2), STRIP - 2);
}

/** Shows what comes before the event that is held or under the pointer, and lets the rest fade. */
function emphasise() {
  const chosen = held >= 0 ? held : hovered;
  for (let i = first; i < after; i++) signs[i - first].classList.toggle("fade", chosen >= 0 && !upTo(i, chosen));
  for (const bar of bars) bar.setAttribute("opacity", chosen >= 0 ? .1 : .17);
  for (const [taking, made] of arrows) {
    const known = chosen >= 0 && upTo(taking, chosen);
    made.classList.toggle("fade", chosen >= 0 && !known);
    made.setAttribute("stroke", known ? "var(--ink)" : "var(--edge)");
    made.setAttribute("marker-end", known ? "url(#tip-dark)" : "url(#tip)");
  }
  const seen = chosen >= first && chosen < after;
  ring?.setAttribute("visibility", seen ? "visible" : "hidden");
  if (seen) {
    ring.setAttribute("cx", x(chosen));
    ring.setAttribute("cy", y(actorOf[chosen]));
  }
}

/* Where to look. */
function moveWindow(to) {
  const begin = Math.max(0, Math.min(size - WINDOW, to));
  if (!windowed || begin === first) return;
  first = begin;
  after = Math.min(size, first + WINDOW);
  draw();
}

function reveal(i) {
  if (i < first || i >= after) moveWindow(i - WINDOW / 2);
  const left = x(i), top = y(actorOf[i]), room = picture.clientWidth - labelWidth, tall = picture.clientHeight - AXIS;
  if (left < picture.scrollLeft + 20 || left > picture.scrollLeft + room - 30) picture.scrollLeft = left - room / 2;
  if (top < picture.scrollTop + 20 || top > picture.scrollTop + tall - 30) picture.scrollTop = top - tall / 2;
}

function hold(i, from) {
  held = i;
  if (i >= 0 && from !== "pointer") reveal(i);
  emphasise();
  show(...(i >= 0 ? aboutEvent(i) : atRest()));
}

function hover(i) {
  if (i === hovered) return;
  hovered = i;
  if (held >= 0) return;
  emphasise();
  show(...(i >= 0 ? aboutEvent(i) : atRest()));
}

/** The event of a lane that is nearest to a point, if it is near. */
function eventAt(event, reach) {
  const box = board.getBoundingClientRect(), left = event.clientX - box.left;
  const lane = Math.floor((event.clientY - box.top) / laneHeight);
  let low = 0, high = xs.length;
  while (low < high) {
    const middle = (low + high) >> 1;
    if (xs[middle] < left - reach) low = middle + 1; else high = middle;
  }
  let nearest = -1;
  for (let k = low; k < xs.length && xs[k] <= left + reach; k++) {
    if (actorOf[first + k] === lane && (nearest < 0 || Math.abs(xs[k] - left) < Math.abs(x(nearest) - left))) nearest = first + k;
  }
  return nearest;
}
