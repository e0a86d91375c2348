/* The events of a run. They are numbered in the order of the run; time goes to the right by events, and not by steps. */

const TAKE = 0, SEND = 1, MAKE = 2, NEW = 3, READ = 4, WRITE = 5;
const COLOURS = 8;

const ended = data.verdict === "ended";
const events = data.events || { place: [], actor: [], word: [], what: [], with: [], own: [], jumps: [] };
const size = events.place.length;
const place = sums(events.place);
const actorOf = Int32Array.from(events.actor);
const word = Uint8Array.from(events.word);
const lanes = (data.actors || []).length;

/* The clocks: an event's own number, and the vector of the others, which changes only if a message is taken. */
const own = new Int32Array(size), vectorOf = new Int32Array(size), actorsAt = new Int32Array(size);
const vectors = [new Int32Array(0)];
{
  const count = new Int32Array(lanes), current = new Int32Array(lanes);
  let jump = 0, there = 2;
  for (let i = 0; i < size; i++) {
    const actor = actorOf[i];
    own[i] = count[actor] += events.own[i];
    const change = events.jumps[jump];
    if (change && change[0] === i) {
      jump++;
      const vector = new Int32Array(Math.max(there, vectors[current[actor]].length));
      vector.set(vectors[current[actor]]);
      for (let k = 1; k < change.length; k += 2) vector[change[k]] += change[k + 1];
      current[actor] = vectors.push(vector) - 1;
    }
    vectorOf[i] = current[actor];
    actorsAt[i] = there;
    if (word[i] === MAKE) there++;
  }
}

/** How many steps of an actor are an event or come before it. */
function clockAt(i, actor) {
  return actor === actorOf[i] ? own[i] : vectors[vectorOf[i]][actor] || 0;
}

/** Whether one event comes before another, or is it. */
function upTo(a, b) {
  return clockAt(b, actorOf[a]) >= own[a];
}

/* Messages: the taking of each sending, the sending of each taking. */
const other = new Int32Array(size).fill(-1);
for (let i = 0; i < size; i++) if (word[i] === TAKE && events.with[i]) {
  other[i] = i - events.with[i];
  other[other[i]] = i;
}

/* Accesses to each field of each object. */
const accesses = new Map();
for (let i = 0; i < size; i++) if (word[i] >= READ) {
  const field = fieldKey(i);
  if (!accesses.has(field)) accesses.set(field, []);
  accesses.get(field).push(i);
}

function fieldKey(i) { return `${events.what[i]} ${events.with[i]}`; }

/* Texts that are printed, at the takings that print them. */
const printedAt = new Map();
if (data.lines_are_texts) {
  let k = 0;
  for (let i = 0; i < size; i++) if (word[i] === TAKE && actorOf[i] === 0) printedAt.set(i, data.printed[k++]);
}

/* Names. */
function actorName(a) { return data.actors[a]; }
function actorWords(a) { return a === 0 ? `${actorName(a)} (the stream)` : `${actorName(a)} (actor ${a})`; }
function methodOf(i) { return data.messages[events.what[i]].split(".")[1]; }
function objectWords(number) { return `${data.objects[number][1]} ${data.objects[number][0]}`; }
function objectOf(i) { return data.objects[events.what[i]]; }
function objectColour(number) { return `var(--object-${number % COLOURS})`; }
function fieldName(i) { return data.fields[objectOf(i)[1]]?.[events.with[i]] ?? `field ${events.with[i]}`; }
