/* The code of a source: which node each token is of, its colour, and the rows that are near the window. */

const LONG_LINE = 2000, PIECE = 200;
const CHUNK_ROWS = 200, CHUNK_LENGTH = 3000, MARGIN = 1500, ENOUGH_TOKENS = 5000;

/* What is bold or faint goes by these words and by the signs of comments and docs, and nothing else does. */
const WORDS = new Set(("actor class primitive trait interface fun be new var let is isnt if then elseif else end while do recover consume "
  + "this true false and or xor not").split(" "));
const TOKEN = /[A-Za-z_][A-Za-z0-9_']*|[0-9][0-9A-Za-z_]*|[ \t\r]+|[^]/y;

/** Where comments and docs are, as starts and ends in turns. */
function quietPlaces() {
  const found = [], begin = /\/\/|\/\*|"""|"/g;
  for (let it; (it = begin.exec(text)); ) {
    const at = it.index;
    let end = text.length;
    if (it[0] === "/*") {
      const inner = /\/\*|\*\//g;
      inner.lastIndex = begin.lastIndex;
      for (let depth = 1, sign; depth && (sign = inner.exec(text)); ) {
        depth += sign[0] === "/*" ? 1 : -1;
        if (!depth) end = inner.lastIndex;
      }
    } else if (it[0] === '"') {
      const close = /(?:[^"\\]|\\[^])*"/y;
      close.lastIndex = begin.lastIndex;
      begin.lastIndex = close.test(text) ? close.lastIndex : end;
      continue;
    } else {
      const close = text.indexOf(it[0] === "//" ? "\n" : '"""', begin.lastIndex);
      if (close >= 0) end = close + (it[0] === "//" ? 0 : 3);
    }
    found.push(at, end);
    begin.lastIndex = end;
  }
  return found;
}

/* The innermost node at each place: starts of segments, and the node of each. */
let segments = [], owners = [];

/** The chosen nodes by their starts; of one start the longer first, of one place the outer first. */
function inOrder() {
  const first = new Int32Array(text.length + 2), taken = [];
  for (let n = 0; n < size; n++) if (nodeEnd[n] > nodeStart[n] && isChosen(n) && !isAdded(n)) {
    taken.push(n);
    first[nodeStart[n] + 1]++;
  }
  for (let i = 1; i < first.length; i++) first[i] += first[i - 1];
  const found = new Int32Array(taken.length), next = first.slice();
  for (const n of taken) found[next[nodeStart[n]]++] = n;
  for (let i = 0; i < found.length; ) {
    const after = first[nodeStart[found[i]] + 1];
    if (after - i > 1) found.subarray(i, after).sort((a, b) => nodeEnd[b] - nodeEnd[a] || b - a);
    i = after;
  }
  return found;
}

function sweep() {
  segments = [];
  owners = [];
  const open = [];
  const put = (at, n) => {
    if (segments.length && segments[segments.length - 1] === at) owners[owners.length - 1] = n;
    else { segments.push(at); owners.push(n); }
  };
  const close = (at) => {
    while (open.length && nodeEnd[open[open.length - 1]] <= at) {
      const end = nodeEnd[open.pop()];
      put(end, open.length ? open[open.length - 1] : -1);
    }
  };
  put(0, -1);
  for (const n of inOrder()) {
    close(nodeStart[n]);
    open.push(n);
    put(nodeStart[n], n);
  }
  close(text.length);
}

/** The place in a list of ascending numbers of the last that is at most `at`. */
function lastUpTo(list, at) {
  let low = 0, high = list.length;
  while (low < high) {
    const middle = (low + high) >> 1;
    if (list[middle] <= at) low = middle + 1; else high = middle;
  }
  return low - 1;
}

/* Rows: a line each, or a piece of a long one. */
const rowStart = [], rowEnd = [], rowLine = [];
for (let at = 0, line = 1; at < text.length || line === 1; line++) {
  let end = text.indexOf("\n", at);
  if (end < 0) end = text.length;
  const step = end - at > LONG_LINE ? PIECE : Infinity;
  for (let from = at, first = true; first || from < end; from += step, first = false) {
    rowStart.push(from);
    rowEnd.push(Math.min(end, from + step));
    rowLine.push(first ? line : 0);
  }
  at = end + 1;
}

const quiet = quietPlaces();

function quietAt(place) {
  return lastUpTo(quiet, place) % 2 === 0;
}

/* Names at their definitions: of slots by their places, of fields as the next such words after their entity's name. */
const definitions = new Map();
for (let s = 0; s < slotStart.length; s++) if (data.slots.length[s]) definitions.set(slotStart[s], slotClass(s));
entities.forEach((it, e) => {
  let at = it[ENTITY.end];
  const limit = e + 1 < entities.length ? entities[e + 1][ENTITY.start] : text.length;
  for (const f of it[ENTITY.end] ? fieldsOf[e] : []) {
    const form = new RegExp(`\\b${fields[f][FIELD.word]}\\s+(${fields[f][FIELD.name]})(?![A-Za-z0-9_'])`, "g");
    form.lastIndex = at;
    for (let found; (found = form.exec(text)) && found.index < limit; ) {
      if (quietAt(found.index)) continue;
      at = form.lastIndex;
      definitions.set(at - found[1].length, fields[f][FIELD.capability]);
      break;
    }
  }
});

/* Kinds whose whole text has their type's colour, and kinds whose own names have it. */
const WHOLE = new Set(["number", "truth", "text", "prim", "this", "local"]);
const OWN_NAMES = new Set(["field", "call", "new", "spawn"]);

/** The class of a word: of a definition, a capability, a name of its node, a reserved word, or none. */
function wordClass(word, at, n) {
  if (CAPABILITIES.includes(word)) return `${word} word`;
  if (definitions.has(at)) return definitions.get(at);
  const kind = n < 0 ? "" : kindOf(n);
  if (OWN_NAMES.has(kind)) return nodeClass(n);
  if (kind === "setfield" && word === named(n)) return writtenClass(n);
  if (kind === "consume" && word !== "consume") return nodeClass(n);
  if (kind === "assign" && at === nodeStart[n]) return slotClass(slotOf(n));
  return WORDS.has(word) ? "word" : "";
}

/** The tokens of a row, each with its start, end, node and class. */
function tokensOf(row) {
  const found = [], end = rowEnd[row];
  let at = rowStart[row];
  while (at < end) {
    const s = lastUpTo(segments, at), n = owners[s];
    let until = Math.min(end, s + 1 < segments.length ? segments[s + 1] : end), kind;
    const q = lastUpTo(quiet, at), isQuiet = q % 2 === 0;
    if (n >= 0 && WHOLE.has(kindOf(n))) kind = nodeClass(n);
    else if (isQuiet) {
      until = Math.min(until, quiet[q + 1]);
      kind = "sign";
    } else {
      TOKEN.lastIndex = at;
      const word = TOKEN.exec(text)[0];
      until = Math.min(until, at + word.length);
      kind = /[A-Za-z_]/.test(word[0]) ? wordClass(word, at, n) : "sign";
    }
    const last = found[found.length - 1];
    if (last && last.kind === kind && last.node === n && last.kind === "sign") last.end = until;
    else found.push({ start: at, end: until, node: n, kind });
    at = until;
  }
  return found;
}

/* Chunks of rows, which are filled as long as they are near the window. */
const source = element("div", "source code");
const chunks = [];
const filled = new Set();
let rowHeight = 22;

function makeChunks() {
  for (let row = 0; row < rowStart.length; ) {
    const first = row;
    let length = 0;
    while (row < rowStart.length && row - first < CHUNK_ROWS && (row === first || length + rowEnd[row] - rowStart[row] < CHUNK_LENGTH)) {
      length += rowEnd[row] - rowStart[row];
      row++;
    }
    const made = { first, after: row, element: element("div"), spans: [] };
    made.element.style.height = `calc(var(--row) * ${row - first})`;
    chunks.push(made);
    source.append(made.element);
  }
}

function fill(chunk) {
  if (filled.has(chunk)) return;
  filled.add(chunk);
  const wrong = data.refusal?.place;
  const made = [];
  for (let row = chunk.first; row < chunk.after; row++) {
    const number = element("span", "number", rowLine[row] ? String(rowLine[row]) : "");
    number.setAttribute("aria-hidden", "true");
    const line = element("div", "row", number);
    let leading = true;
    for (const token of tokensOf(row)) {
      const words = visible(text.slice(token.start, token.end));
      if (leading && !words.trim()) { line.append(words); continue; }
      const lead = leading ? words.match(/^[ \t]*/)[0].length : 0;
      leading = false;
      if (lead) line.append(words.slice(0, lead));
      const span = element("span", token.kind, words.slice(lead));
      if (wrong && token.start < Math.max(wrong[1], wrong[0] + 1) && token.end > wrong[0]) span.classList.add("wrong");
      span.token = token;
      span.shown = "";
      span.base = span.className;
      chunk.spans.push(span);
      line.append(span);
    }
    made.push(line);
  }
  chunk.element.replaceChildren(...made);
  paint(chunk);
}

function empty(chunk) {
  filled.delete(chunk);
  chunk.spans = [];
  chunk.element.replaceChildren();
}

function chunkOf(row) {
  let low = 0, high = chunks.length;
  while (low < high) {
    const middle = (low + high) >> 1;
    if (chunks[middle].after <= row) low = middle + 1; else high = middle;
  }
  return low;
}

/** Fills what is in the window, and what is near it as long as the tokens are not too many, and empties the rest. */
function refresh() {
  if (!chunks.length) return;
  const rowAt = (top) => Math.min(rowStart.length - 1, Math.max(0, Math.floor(top / rowHeight)));
  const chunkAt = (top) => chunkOf(rowAt(top));
  const first = chunkAt(picture.scrollTop), last = chunkAt(picture.scrollTop + picture.clientHeight);
  const least = chunkAt(picture.scrollTop - MARGIN), most = chunkAt(picture.scrollTop + picture.clientHeight + MARGIN);
  const wanted = new Set();
  for (let i = first; i <= last; i++) wanted.add(chunks[i]);
  for (const chunk of [...filled]) if (!wanted.has(chunk) && (chunk.after <= chunks[least].first || chunk.first >= chunks[most].after)) empty(chunk);
  wanted.forEach(fill);
  let tokens = 0;
  for (const chunk of filled) tokens += chunk.spans.length;
  for (let i = 1; tokens < ENOUGH_TOKENS && (first - i >= least || last + i <= most); i++) {
    for (const at of [last + i, first - i]) if (at >= least && at <= most && !filled.has(chunks[at])) {
      fill(chunks[at]);
      tokens += chunks[at].spans.length;
    }
  }
  if (tokens > ENOUGH_TOKENS) for (const chunk of [...filled]) if (!wanted.has(chunk) && tokens > ENOUGH_TOKENS) {
    tokens -= chunk.spans.length;
    empty(chunk);
  }
}

function refill() {
  for (const chunk of [...filled]) empty(chunk);
  refresh();
}

/* What is held, and what is under the pointer. */
let held = -1, hovered = -1;

/** The places of one slot's name: its definition, its uses, what consumes it, and what assigns it. */
function placesOfSlot(n) {
  const found = new Set();
  if (n < 0 || !usesSlot(n)) return found;
  const slot = slotOf(n), length = slotName(slot).length;
  const [first, after] = nodesOf(methodOf[n]);
  found.add(slotStart[slot]);
  for (let it = first; it < after; it++) if (usesSlot(it) && kindOf(it) !== "define" && slotOf(it) === slot) {
    found.add(kindOf(it) === "consume" ? nodeEnd[it] - length : nodeStart[it]);
  }
  return found;
}

let same = new Set();

function paint(chunk) {
  let lastRow = null, lastMark = null;
  for (const span of chunk.spans) {
    const { start, end } = span.token;
    const isMark = held >= 0 && start >= nodeStart[held] && end <= nodeEnd[held] && !isAdded(held);
    const isHover = hovered >= 0 && hovered !== held && start >= nodeStart[hovered] && end <= nodeEnd[hovered];
    let shown = (isMark ? " mark" : isHover ? " hover" : "") + (same.has(start) ? " same" : "");
    if (isMark) {
      if (span.parentNode !== lastRow || !lastMark) shown += " first";
      else lastMark.shown = lastMark.shown.replace(" last", "");
      shown += " last";
      lastMark = span;
    } else if (span.parentNode !== lastRow) lastMark = null;
    lastRow = span.parentNode;
    span.next = shown;
    if (isMark) { span.shown = shown; }
  }
  for (const span of chunk.spans) {
    const wanted = span.base + (span.next.includes(" mark") ? span.shown : span.next);
    if (span.className !== wanted) span.className = wanted;
  }
}

function repaint() {
  same = placesOfSlot(held >= 0 ? held : hovered);
  for (const chunk of filled) paint(chunk);
}

/** Scrolls so that a place is in view. */
function reveal(at, share) {
  const row = lastUpTo(rowStart, at), top = row * rowHeight, height = picture.clientHeight;
  if (share !== undefined || top < picture.scrollTop + rowHeight || top > picture.scrollTop + height - 2 * rowHeight) {
    picture.scrollTop = Math.max(0, top - height * (share ?? .4));
  }
  refresh();
  const span = chunks[chunkOf(row)].spans.find((it) => it.token.end > at);
  if (!span) return;
  const box = span.getBoundingClientRect(), frame = picture.getBoundingClientRect();
  if (box.left < frame.left + 60) picture.scrollLeft -= frame.left + 70 - box.left;
  else if (box.left > frame.right - 40) picture.scrollLeft += box.left - frame.right + Math.min(200, frame.width / 2);
}

function hold(n, from) {
  held = n;
  if (n >= 0) {
    choose(n);
    if (from !== "pointer") reveal(nodeStart[n]);
  }
  repaint();
  show(...(n >= 0 ? aboutNode(n) : atRest()));
}

function hover(n) {
  if (n === hovered) return;
  hovered = n;
  repaint();
  if (held < 0) show(...(n >= 0 ? aboutNode(n) : atRest()));
}

/** The node that a click on a token holds: the innermost, or the next one out if one there is held already. */
function clicked(n) {
  for (let it = held; it >= 0 && n >= 0; it = -1) {
    for (let inner = n; inner >= 0; inner = parent[inner]) if (inner === it) return outward(it, n);
  }
  return n;
}

function outward(n, innermost) {
  let out = parent[n];
  while (out >= 0 && nodeStart[out] === nodeStart[n] && nodeEnd[out] === nodeEnd[n]) out = parent[out];
  return out >= 0 ? out : innermost;
}
