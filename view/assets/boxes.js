/* The drawing of who sends what: where boxes stand, and their arrows. */

const HEAD = 38, ROW = 26, FOOT = 8, CHARACTER = 8.4, SIDES = 44, LEAST_WIDTH = 120, MOST_CHARACTERS = 24;
const BETWEEN = 112, EDGE = 40, BESIDE = 22, TALL_BETWEEN = 56;
const MOST_NEIGHBOURS = 40, MOST_ROWS = 40;

/* Scenes: boxes with places, and arrows with paths. */

/** A path through points, between which it goes level if `level`, else upright. */
function curve(points, level) {
  let d = `M${points[0][0]} ${points[0][1]}`;
  for (let i = 1; i < points.length; i++) {
    const [x1, y1] = points[i - 1], [x2, y2] = points[i];
    if (level ? y1 === y2 : x1 === x2) d += `L${x2} ${y2}`;
    else if (level) {
      const half = Math.max(24, Math.abs(x2 - x1) / 2);
      const [out, back] = [points[i - 1][2] ?? 1, points[i][2] ?? 1];
      d += `C${x1 + out * half} ${y1} ${x2 - back * half} ${y2} ${x2} ${y2}`;
    } else {
      const half = Math.max(20, Math.abs(y2 - y1) / 2);
      const [out, back] = [points[i - 1][2] ?? 1, points[i][2] ?? 1];
      d += `C${x1} ${y1 + out * half} ${x2} ${y2 - back * half} ${x2} ${y2}`;
    }
  }
  return d;
}

/** Where in a box its arrows begin: one place for each arrow, in the order of where they go. */
function outlets(count, from, to) {
  return Array.from({ length: count }, (_, i) => from + (to - from) * (i + 1) / (count + 1));
}

/** The scene of the whole table, of layers from left to right. */
function wideScene() {
  const { layer, at, ways } = data.wide;
  const count = Math.max(-1, ...layer) + 1, left = [], widths = [];
  for (let i = 0, x = EDGE; i < count; i++) {
    widths[i] = Math.max(...layer.map((it, box) => (it === i ? data.sizes[box][0] : 0)));
    left[i] = x;
    x += widths[i] + BETWEEN;
  }
  const placed = boxes.map((_, box) => {
    const [width, height] = data.sizes[box];
    return { box, x: left[layer[box]], y: EDGE + at[box] - height / 2, width, height, rows: messagesOf[box] };
  });
  const wayOf = new Map(ways.map(([source, target, way]) => [source * boxes.length + target, way]));
  const arrows = [];
  for (const [box, row] of sentBy) {
    const source = placed[box], sorted = [...row].sort((a, b) => portOf(placed, a)[1] - portOf(placed, b)[1]);
    const outs = outlets(sorted.length, source.y + 6, source.y + Math.max(HEAD, Math.min(source.height, HEAD + 14 * sorted.length / 2)) - 4);
    sorted.forEach((m, i) => {
      const target = messages[m][MESSAGE.box], [px, py] = portOf(placed, m);
      const way = wayOf.get(box * boxes.length + target), shift = (i - (sorted.length - 1) / 2) * 2.5;
      const points = [[source.x + source.width, outs[i]]];
      const back = layer[target] <= layer[box];
      for (const [passed, along] of way) {
        const y = EDGE + along + shift, ends = [[left[passed], y], [left[passed] + widths[passed], y]];
        if (back) points.push([...ends[1], -1], [...ends[0], -1]);
        else points.push(...ends);
      }
      points.push([px - 8, py]);
      arrows.push({ box, m, d: curve(points, true) });
    });
  }
  return bounded({ placed, arrows });
}

function portOf(placed, m) {
  const target = placed[messages[m][MESSAGE.box]];
  return [target.x, target.y + HEAD + ROW * (target.rows.indexOf(m) + .5)];
}

/** The scene for narrow windows, of layers from top to bottom. */
function tallScene() {
  const { layer, at, ways } = data.tall;
  const count = Math.max(-1, ...layer) + 1, top = [], heights = [];
  for (let i = 0, y = EDGE; i < count; i++) {
    heights[i] = Math.max(...layer.map((it, box) => (it === i ? data.sizes[box][1] : 0)));
    top[i] = y;
    y += heights[i] + TALL_BETWEEN;
  }
  const placed = boxes.map((_, box) => {
    const [width, height] = data.sizes[box];
    return { box, x: 16 + at[box] - (width + BESIDE) / 2 + BESIDE, y: top[layer[box]], width, height, rows: messagesOf[box] };
  });
  const wayOf = new Map(ways.map(([source, target, way]) => [source * boxes.length + target, way]));
  const arrows = [];
  for (const [box, row] of sentBy) {
    const source = placed[box], sorted = [...row].sort((a, b) => portOf(placed, a)[0] - portOf(placed, b)[0] || b - a);
    const outs = outlets(sorted.length, source.x + 10, source.x + source.width - 10);
    sorted.forEach((m, i) => {
      const target = messages[m][MESSAGE.box], [px, py] = portOf(placed, m), beside = px - 9 - i % 4 * 3.5;
      const way = wayOf.get(box * boxes.length + target), shift = (i - (sorted.length - 1) / 2) * 2.5;
      const back = layer[target] <= layer[box], points = [[outs[i], source.y + source.height]];
      for (const [passed, along] of way) {
        const x = 16 + along + shift, ends = [[x, top[passed]], [x, top[passed] + heights[passed]]];
        if (back) points.push([...ends[1], -1], [...ends[0], -1]);
        else points.push(...ends);
      }
      points.push([beside, placed[target].y], [beside, py - 8]);
      arrows.push({ box, m, d: `${curve(points, false)}Q${beside} ${py} ${px - 8} ${py}` });
    });
  }
  return bounded({ placed, arrows });
}

/** A box of a scene of neighbours, with those rows that matter there. */
function neighbour(box, rows, x, y) {
  const shown = rows.slice(0, MOST_ROWS);
  const longest = Math.max(boxes[box].length * 1.1, ...shown.map((m) => messages[m][MESSAGE.name].length));
  const width = Math.max(LEAST_WIDTH, Math.min(longest, MOST_CHARACTERS) * CHARACTER + SIDES + (shown.some((m) => never.has(m)) ? 46 : 0));
  return { box, x, y, width, height: HEAD + ROW * shown.length + (shown.length ? FOOT : 0), rows: shown, more: rows.length - shown.length };
}

/** The scene of one entity and its neighbours: who sends to it, and what it sends. */
function nearScene() {
  const narrow = matchMedia(NARROW).matches;
  const sends = [...(sentBy.get(centre) || [])];
  const receivers = new Map();
  for (const m of sends) {
    const box = messages[m][MESSAGE.box];
    if (box !== centre) receivers.set(box, [...(receivers.get(box) || []), m]);
  }
  const senders = [...new Set(messagesOf[centre].flatMap((m) => sendersOf[m]))].filter((it) => it !== centre);
  const lists = [senders.slice(0, MOST_NEIGHBOURS).map((it) => neighbour(it, [], 0, 0)), [neighbour(centre, messagesOf[centre], 0, 0)],
    [...receivers].slice(0, MOST_NEIGHBOURS).map(([box, rows]) => neighbour(box, rows.slice(0, 6), 0, 0))];
  const left = [senders.length - lists[0].length, 0, receivers.size - lists[2].length];
  const tallest = Math.max(...lists.map((it) => it.reduce((sum, one) => sum + one.height + 18, 0)));
  const placed = [];
  let x = EDGE + (narrow ? 0 : 20);
  for (const list of lists) {
    if (!list.length) continue;
    let y = EDGE + (tallest - list.reduce((sum, one) => sum + one.height + 18, 0)) / 2;
    for (const one of list) {
      one.x = x;
      one.y = y;
      y += one.height + 18;
      placed.push(one);
    }
    x += Math.max(...list.map((it) => it.width)) + BETWEEN;
  }
  return bounded({ placed, arrows: nearArrows(placed), left });
}

function nearArrows(placed) {
  const at = new Map(placed.map((it) => [it.box, it])), arrows = [], middle = at.get(centre);
  const add = (box, m) => {
    const source = at.get(box), target = at.get(messages[m][MESSAGE.box]);
    const place = target ? target.rows.indexOf(m) : -1;
    if (!source || place < 0) return;
    const y = target.y + HEAD + ROW * (place + .5), from = [source.x + source.width, source.y + HEAD / 2];
    const over = source === target ? [[source.x + source.width, source.y - 14, -1], [source.x, source.y - 14, -1]] : [];
    arrows.push({ box, m, d: curve([from, ...over, [target.x - 8, y]], true) });
  };
  for (const m of middle.rows) for (const box of sendersOf[m]) if (box !== centre) add(box, m);
  for (const m of sentBy.get(centre) || []) add(centre, m);
  return arrows;
}

function bounded(scene) {
  scene.width = Math.max(0, ...scene.placed.map((it) => it.x + it.width)) + EDGE + 14;
  scene.height = Math.max(0, ...scene.placed.map((it) => it.y + it.height)) + EDGE;
  return scene;
}

/* The drawing. */
const board = drawn("svg", {});
let scene = null, boxParts = [], rowParts = [], arrowParts = [];

function marker(number) {
  const fill = number === "never" ? "var(--none)" : `var(--object-${number})`;
  const size = { viewBox: "0 0 10 10", refX: 8, refY: 5, markerWidth: 11, markerHeight: 11 };
  return drawn("marker", { id: `tip-${number}`, orient: "auto", markerUnits: "userSpaceOnUse", ...size },
    drawn("path", { d: "M0 0L10 5L0 10Z", fill }));
}

function draw() {
  if (!boxes.length) return;
  scene = !whole ? nearScene() : matchMedia(NARROW).matches ? tallScene() : wideScene();
  const room = Math.max(200, picture.clientWidth), high = picture.clientHeight;
  const narrow = matchMedia(NARROW).matches;
  const fit = narrow ? room / scene.width : Math.min(room / scene.width, high / scene.height);
  const used = scale * Math.max(.8, Math.min(narrow ? 1 : 1.2, fit));
  const width = scene.width * used, height = scene.height * used;
  board.setAttribute("width", width);
  board.setAttribute("height", height);
  board.setAttribute("viewBox", `0 0 ${scene.width} ${scene.height}`);
  board.replaceChildren(drawn("defs", {}, ...Array.from({ length: COLOURS }, (_, i) => marker(i))));
  boxParts = [];
  rowParts = [];
  arrowParts = [];
  scene.placed.forEach(drawBox);
  scene.arrows.forEach(drawArrow);
  drawPorts();
  if (scene.left) drawRest();
  emphasise();
  if (!whole) reveal({ box: centre });
}

function drawBox(it) {
  const dashed = isNeverMade(it.box), name = drawn("text", { x: it.x + 14, y: it.y + 24, class: "name" }, cut(boxes[it.box], MOST_CHARACTERS));
  name.style.fontSize = "15px";
  const made = drawn("g", { class: "fades" }, drawn("title", {}, boxes[it.box]),
    drawn("rect", { x: it.x, y: it.y, width: it.width, height: it.height, rx: 9, fill: "var(--card)", stroke: "var(--ink)", "stroke-width": 1.5,
      "stroke-dasharray": dashed ? "6 5" : "none", class: "box" }), name);
  if (it.rows.length) made.append(drawn("path", { d: `M${it.x + 1} ${it.y + HEAD}H${it.x + it.width - 1}`, stroke: "var(--line)" }));
  if (dashed) {
    const note = drawn("text", { x: it.x + it.width - 4, y: it.y - 6, class: "faint", "text-anchor": "end" }, "never made");
    note.style.fontSize = "11.5px";
    made.append(note);
  }
  boxParts.push([it.box, made]);
  board.append(made);
  it.rows.forEach((m, i) => drawRow(it, m, i));
}

function drawRow(it, m, i) {
  const y = it.y + HEAD + ROW * i, dull = never.has(m);
  const name = drawn("text", { x: it.x + 17, y: y + ROW / 2 + 4.5 }, cut(messages[m][MESSAGE.name], MOST_CHARACTERS));
  name.style.fontSize = "13px";
  if (dull) name.style.fill = "var(--none)";
  const made = drawn("g", { class: "fades row-of" }, drawn("title", {}, messageName(m)),
    drawn("rect", { x: it.x + 4, y: y + 1, width: it.width - 8, height: ROW - 2, rx: 6, fill: "transparent", class: "back" }), name);
  if (dull) {
    const note = drawn("text", { x: it.x + it.width - 10, y: y + ROW / 2 + 4, "text-anchor": "end" }, "never");
    note.style.fontSize = "11px";
    note.style.fill = "var(--none)";
    made.append(note);
  }
  rowParts.push([m, made]);
  board.append(made);
}

function drawArrow(it) {
  const hue = colour(it.box);
  const made = drawn("path", { d: it.d, fill: "none", stroke: hue, "stroke-width": 1.9, class: "fades",
    "marker-end": `url(#tip-${(it.box - (data.first ?? 0) + boxes.length) % boxes.length % COLOURS})` });
  arrowParts.push([it, made]);
  board.append(made);
}

function drawPorts() {
  for (const it of scene.placed) it.rows.forEach((m, i) => {
    const dull = never.has(m);
    const made = drawn("circle", { cx: it.x, cy: it.y + HEAD + ROW * (i + .5), r: 4.3, fill: "var(--card)", class: "fades",
      stroke: dull ? "var(--none)" : "var(--ink)", "stroke-width": 1.5, "stroke-dasharray": dull ? "2 2" : "none" });
    rowParts.push([m, made]);
    board.append(made);
  });
}

function drawRest() {
  const [senders, , receivers] = scene.left;
  const words = [senders ? `and ${senders} more send to it` : "", receivers ? `and it sends to ${receivers} more` : ""].filter(Boolean).join("; ");
  if (words) board.append(drawn("text", { x: EDGE, y: 24, class: "faint" }, words));
}

function chosen() { return held ?? hovered; }

/** Whether an arrow has to do with what is chosen. */
function concerns(arrow, it) {
  return it.message !== undefined ? arrow.m === it.message : arrow.box === it.box || messages[arrow.m][MESSAGE.box] === it.box;
}

function emphasise() {
  const it = chosen();
  const near = new Set(), rows = new Set();
  if (it) {
    near.add(it.box);
    if (it.message !== undefined) rows.add(it.message); else (messagesOf[it.box] || []).forEach((m) => rows.add(m));
    for (const [arrow] of arrowParts) if (concerns(arrow, it)) {
      near.add(arrow.box);
      near.add(messages[arrow.m][MESSAGE.box]);
      rows.add(arrow.m);
    }
  }
  for (const [box, made] of boxParts) {
    made.classList.toggle("fade", Boolean(it) && !near.has(box));
    made.querySelector(".box").setAttribute("stroke-width", it && it.box === box ? 2.6 : 1.5);
  }
  for (const [m, made] of rowParts) {
    made.classList.toggle("fade", Boolean(it) && !near.has(messages[m][MESSAGE.box]));
    made.querySelector?.(".back")?.setAttribute("fill", it && it.message === m ? "var(--marked)" : "transparent");
  }
  for (const [arrow, made] of arrowParts) {
    made.classList.toggle("fade", Boolean(it) && !concerns(arrow, it));
    made.setAttribute("stroke-width", it && concerns(arrow, it) ? 2.6 : 1.9);
  }
}

function sameAs(a, b) { return a === b || (a && b && a.box === b.box && a.message === b.message); }

function hold(it, from) {
  held = it;
  if (it && !whole && it.box >= 0 && it.box !== centre && it.message === undefined) {
    centre = it.box;
    draw();
  } else emphasise();
  if (it && from !== "pointer") reveal(it);
  show(...(it ? about(it) : atRest()));
}

function hover(it) {
  if (sameAs(it, hovered)) return;
  hovered = it;
  if (held) return;
  emphasise();
  show(...(it ? about(it) : atRest()));
}

function reveal(it) {
  const made = it.message !== undefined ? rowParts.find(([m]) => m === it.message)?.[1] : boxParts.find(([box]) => box === it.box)?.[1];
  if (!made) return;
  const box = made.getBoundingClientRect(), frame = picture.getBoundingClientRect();
  if (box.left < frame.left + 10 || box.right > frame.right - 10) picture.scrollLeft += (box.left + box.right - frame.left - frame.right) / 2;
  if (box.top < frame.top + 10 || box.bottom > frame.bottom - 10) picture.scrollTop += (box.top + box.bottom - frame.top - frame.bottom) / 2;
}

/** What is at a point of the picture: a message, a box, or nothing. */
function at(event) {
  const frame = board.getBoundingClientRect(), zoom = frame.width / scene.width;
  const x = (event.clientX - frame.left) / zoom, y = (event.clientY - frame.top) / zoom;
  for (const it of scene.placed) if (x >= it.x - 8 && x <= it.x + it.width && y >= it.y && y <= it.y + it.height) {
    const row = Math.floor((y - it.y - HEAD) / ROW);
    return y >= it.y + HEAD && row < it.rows.length ? { box: it.box, message: it.rows[row] } : { box: it.box };
  }
  return null;
}
