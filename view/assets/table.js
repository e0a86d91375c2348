/* The table of who sends what. */

const COLOURS = 8;
const MESSAGE = { box: 0, entity: 1, name: 2 };

const { boxes, messages } = data;
const size = messages.length;
const never = new Set(data.never), constructors = new Set(data.constructors), neverMade = new Set(data.never_made);

/* Rows of the table: of each sender its messages, and of each message its senders. */
const sentBy = new Map(data.senders.map((box, k) => [box, sums(data.rows[k])]));
const sendersOf = messages.map(() => []);
for (const [box, row] of sentBy) for (const m of row) sendersOf[m].push(box);
const messagesOf = boxes.map(() => []);
messages.forEach((it, m) => { if (it[MESSAGE.box] >= 0) messagesOf[it[MESSAGE.box]].push(m); });

function entityName(m) { return messages[m][MESSAGE.box] >= 0 ? boxes[messages[m][MESSAGE.box]] : messages[m][MESSAGE.entity]; }
function messageName(m) { return `${entityName(m)}.${messages[m][MESSAGE.name]}`; }
function colour(box) { return `var(--object-${(box - (data.first ?? 0) + boxes.length) % boxes.length % COLOURS})`; }
function isNeverMade(box) { return neverMade.has(boxes[box]); }
function cut(name, most) { return name.length > most ? `${name.slice(0, most - 1)}\u2026` : name; }

/* What is held, and what is under the pointer: a box, or a message. */
let held = null, hovered = null;
let centre = data.first ?? 0;
let scale = 1;
const whole = Boolean(data.wide);
