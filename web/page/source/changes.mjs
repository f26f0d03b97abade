// What the changes of a step come to, in the words of the field: capabilities that went, came or were altered, objects
// that ended or are new, threads that are ready again.

const keyOf = (line) => `${line.kind} ${line.address}`;

/** The old and the new lines of a step by their keys. */
function linesOf(step) {
  const old = new Map();
  const now = new Map();
  for (const { sign, line } of step.changes) (sign === "-" ? old : now).set(keyOf(line), line);
  return { old, now };
}

/** Slots by address: those emptied and filled, and those altered, as pairs of the old line and the new one. */
function slotChanges(old, now) {
  const found = { emptied: new Map(), filled: new Map(), altered: new Map() };
  for (const [key, line] of old) {
    if (line.kind !== "slot") continue;
    if (now.has(key)) found.altered.set(line.address, [line, now.get(key)]);
    else found.emptied.set(line.address, line);
  }
  for (const [key, line] of now) if (line.kind === "slot" && !old.has(key)) found.filled.set(line.address, line);
  return found;
}

/** The capabilities of lines whose objects are not live at another place of the run, each object once. */
function objectsNotIn(places, lines) {
  const found = new Map();
  for (const { capability } of lines) if (!places.isLive(capability.object)) found.set(capability.object, capability);
  return found;
}

/** The capability that a move took from one slot to another, as its two lines, or null. */
function movedBy(step, { emptied, filled }) {
  const moves = step.operation === "move" || step.operation === "mutate";
  if (!moves || emptied.size !== 1 || filled.size !== 1) return null;
  return { from: [...emptied.values()][0], to: [...filled.values()][0] };
}

/** Threads that are ready and were not, as pairs of the old line and the new one. */
function readyAgain(old, now) {
  return [...old.values()].filter((line) => line.kind === "thread" && line.state !== "ready")
    .map((line) => [line, now.get(keyOf(line))]).filter(([, line]) => line?.state === "ready");
}

/** Whether a line tells of a CNode that some slot leads to, or of a thread: without one no CNode is lost. */
const leadsOn = ({ kind, capability }) => kind === "thread" || capability?.kind === "cnode";

/** The CNodes that no thread leads to any more, each with those in a circle with it. */
function newlyLost(step, before, after) {
  if (!step.changes.some(({ sign, line }) => sign === "-" && leadsOn(line))) return new Map();
  const already = before.lostNodes();
  return new Map([...after.lostNodes()].filter(([base]) => !already.has(base)));
}

const NONE = new Map();

/** No changes. */
export const NOTHING = { old: NONE, now: NONE, emptied: NONE, filled: NONE, altered: NONE, ended: NONE, born: NONE,
  lost: NONE, ready: [], moved: null };

/** What a step changed. Boot makes all that there is, so nothing is marked as changed by it. */
export function changesOf(step, before, after) {
  if (step.number === 0) return NOTHING;
  const { old, now } = linesOf(step);
  const slots = slotChanges(old, now);
  const pairs = [...slots.altered.values()];
  return {
    old, now, ...slots,
    ended: objectsNotIn(after, [...slots.emptied.values(), ...pairs.map(([line]) => line)]),
    born: objectsNotIn(before, [...slots.filled.values(), ...pairs.map(([, line]) => line)]),
    lost: newlyLost(step, before, after),
    ready: readyAgain(old, now),
    moved: movedBy(step, slots),
  };
}

/** The topmost slot that was emptied with a slot and that it was derived from, or itself; `tops` has those found. */
function topOf(line, emptied, tops) {
  const way = new Set();
  let top = line;
  while (!tops.has(top) && !way.has(top) && emptied.has(top.under)) {
    way.add(top);
    top = emptied.get(top.under);
  }
  top = tops.get(top) ?? top;
  for (const below of way) tops.set(below, top);
  return top;
}

// Of more emptied slots than these, those that were derived from others of them are counted.
const MOST_TOLD = 8;

/** Whether a step emptied so many slots that they are summed up. */
export const isSummedUp = ({ emptied }) => emptied.size > MOST_TOLD;

/** The slots that a step emptied as trees: each that was derived from no other one of them, by its line, with those that
    were, at whatever depth. */
export function emptiedTrees({ emptied }) {
  const trees = new Map();
  const tops = new Map();
  for (const line of emptied.values()) {
    const top = topOf(line, emptied, tops);
    if (!trees.has(top)) trees.set(top, []);
    if (top !== line) trees.get(top).push(line);
  }
  return trees;
}

/** Whether two lines of one slot say the same but for what the slot is derived from and whether it is original. */
export function holdsTheSame(one, other) {
  const plain = ({ text }) => text.replace(/^slot \d+/, "").replace(/ original$/, "").replace(/ under \d+$/, "");
  return plain(one) === plain(other);
}

/** How a line of a state that is shown was changed: `filled`, `altered`, `emptied`, `moved`, or nothing. */
export function markOf(changes, slot) {
  if (changes.emptied.get(slot.address) === slot) return changes.moved ? "moved" : "emptied";
  if (changes.filled.has(slot.address)) return "filled";
  return changes.altered.has(slot.address) ? "altered" : "";
}
