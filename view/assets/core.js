/* A core and its derivation, as a page has them. Places are units of the shown text; numbers are those of the core. */

const CAPABILITIES = ["iso", "trn", "ref", "val", "box", "tag"];
const NO_TYPE = "-";
const ENTITY = { kind: 0, capability: 1, start: 2, end: 3, name: 4 };
const FIELD = { entity: 0, word: 1, of: 2, capability: 3, name: 4 };
const METHOD = { entity: 0, kind: 1, start: 2, end: 3, slot: 4, node: 5, taken: 6, name: 7 };
const text = data.source;
const { entities, fields, methods } = data;
const known = data.verdict === "accepted";

/* The nodes: their places, methods, parents and first descendants. */
const size = data.nodes.kind.length;
const nodeStart = sums(data.nodes.start);
const nodeEnd = nodeStart.map((it, n) => it + data.nodes.length[n]);
const kinds = data.nodes.kinds.map((it) => it.split(":")[0]);
const kindNames = data.nodes.kinds.map((it) => it.split(":")[1]);
const methodOf = new Int32Array(size);
const parent = new Int32Array(size).fill(-1);
const firstBelow = new Int32Array(size);
methods.forEach((it, m) => methodOf.fill(m, it[METHOD.node], m + 1 < methods.length ? methods[m + 1][METHOD.node] : size));
{
  const waiting = [];
  for (let n = 0; n < size; n++) {
    const children = data.nodes.children[n];
    firstBelow[n] = n;
    for (let i = 0; i < children; i++) {
      const child = waiting.pop();
      parent[child] = n;
      firstBelow[n] = firstBelow[child];
    }
    if (kindOf(n) === "body") waiting.length = 0;
    else waiting.push(n);
  }
}

const slotStart = sums(data.slots.start);

function kindOf(n) { return kinds[data.nodes.kind[n]]; }
function named(n) { return kindNames[data.nodes.kind[n]]; }
function typeOf(n) { return known ? data.types[data.nodes.type[n]] : NO_TYPE; }
function formOf(type) { return type === NO_TYPE ? NO_TYPE : type.split(" ")[1]; }
function classOf(form) { return form === NO_TYPE ? "none" : form.replace("^", ""); }
function nodeClass(n) { return known ? classOf(formOf(typeOf(n))) : ""; }
function slotType(s) { return data.types[data.slots.type[s]]; }
function slotClass(s) { return known ? classOf(formOf(slotType(s))) : ""; }
function slotName(s) { return data.slots.kinds[data.slots.kind[s]] === "this" ? "this" : data.names[data.slots.name[s]]; }
function slotOf(n) { return methods[methodOf[n]][METHOD.slot] + Number(named(n)); }
function usesSlot(n) { return ["local", "consume", "define", "assign"].includes(kindOf(n)); }
function methodName(m) { return `${entities[methods[m][METHOD.entity]][ENTITY.name]}.${methods[m][METHOD.name]}`; }
function slotsOf(m) { return [methods[m][METHOD.slot], m + 1 < methods.length ? methods[m + 1][METHOD.slot] : data.slots.kind.length]; }
function nodesOf(m) { return [methods[m][METHOD.node], m + 1 < methods.length ? methods[m + 1][METHOD.node] : size]; }

/** A type in words: the entity's name and the form. */
function typeWords(type) {
  if (type === NO_TYPE) return "no type";
  const [entity, form] = type.split(" ");
  return `${entities[entity][ENTITY.name]} ${form}`;
}

function children(n) {
  const found = [];
  for (let i = 0, child = n - 1; i < data.nodes.children[n]; i++, child = firstBelow[child] - 1) found.unshift(child);
  return found;
}

/** Whether a node stands for something that is not written, so that its place is that of another thing. */
function isAdded(n) {
  const kind = kindOf(n), method = methods[methodOf[n]];
  if (kind === "body") return false;
  if (nodeStart[n] === method[METHOD.start] && nodeEnd[n] === method[METHOD.end]) return true;
  if (kind === "this") return text.slice(nodeStart[n], nodeEnd[n]) !== "this";
  if (kind === "prim") return !text.startsWith(entities[Number(named(n))][ENTITY.name], nodeStart[n]);
  return kind === "seq" && data.nodes.children[n] === 1 && nodeStart[n] === nodeStart[n - 1] && nodeEnd[n] === nodeEnd[n - 1] && isAdded(n - 1);
}

/** The fields of an entity, by their numbers in the text of places. */
const fieldsOf = entities.map(() => []);
fields.forEach((it, f) => fieldsOf[it[FIELD.entity]].push(f));

/** The class of the field that a write names: that of the origin's entity. */
function writtenClass(n) {
  const origin = n - 1;
  const noted = known && typeOf(origin) !== NO_TYPE ? Number(typeOf(origin).split(" ")[0]) : -1;
  const entity = kindOf(origin) === "this" ? methods[methodOf[n]][METHOD.entity] : noted;
  const field = entity < 0 ? undefined : fieldsOf[entity].find((f) => fields[f][FIELD.name] === named(n));
  return field === undefined ? "" : fields[field][FIELD.capability];
}

/* A body that several entities take over has nodes of each of them at one place: one of them is chosen. So is one of the
   constructors of an entity, which all have the initial values of its fields. */
const groups = new Map();
methods.forEach((it, m) => {
  const [first, after] = nodesOf(m);
  if (first === after) return;
  const place = it[METHOD.start];
  if (!groups.has(place)) groups.set(place, []);
  groups.get(place).push(m);
});
const constructors = entities.map(() => []);
methods.forEach((it, m) => { if (it[METHOD.kind] === "new" || it[METHOD.kind] === "spawn") constructors[it[METHOD.entity]].push(m); });
const chosenMethod = new Map([...groups].map(([place, group]) => [place, group[0]]));
const chosenConstructor = constructors.map((it) => it[0]);

/** Whether a node of a constructor is one of an initial value, so that each constructor has one like it. */
function isInitial(n) {
  const method = methods[methodOf[n]], group = constructors[method[METHOD.entity]];
  if (group.length < 2 || !group.includes(methodOf[n])) return false;
  return nodeStart[n] < Math.min(...group.map((m) => methods[m][METHOD.start])) && nodeStart[n] >= entities[method[METHOD.entity]][ENTITY.end];
}

function isChosen(n) {
  const method = methods[methodOf[n]];
  if (chosenMethod.get(method[METHOD.start]) !== methodOf[n]) return false;
  return !isInitial(n) || chosenConstructor[method[METHOD.entity]] === methodOf[n];
}

/** The node of another method at the same place, or its body. */
function likeIn(n, m) {
  const [first, after] = nodesOf(m);
  for (let it = after - 1; it >= first; it--) if (nodeStart[it] === nodeStart[n] && nodeEnd[it] === nodeEnd[n] && kindOf(it) === kindOf(n)) return it;
  for (let it = after - 1; it >= first; it--) if (nodeStart[it] === nodeStart[n] && nodeEnd[it] === nodeEnd[n]) return it;
  return after - 1;
}

function choose(n) {
  const method = methods[methodOf[n]];
  if (isChosen(n)) return;
  chosenMethod.set(method[METHOD.start], methodOf[n]);
  if (isInitial(n)) chosenConstructor[method[METHOD.entity]] = methodOf[n];
  sweep();
  refill();
}
