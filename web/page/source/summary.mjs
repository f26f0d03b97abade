// What a call did: its sentence, its reply, and one line for each thing that changed.
import { code, counted, dim, element } from "./element.mjs";
import { capabilityName, kindMark, kindWord, messageName, nameOfObject, signOf, slotName, threadName } from "./names.mjs";
import { holdsTheSame, isSummedUp } from "./changes.mjs";
import { meaningOf } from "./refusals.mjs";
import { sentenceOf } from "./sentence.mjs";
import { sumsOf } from "./sums.mjs";
import { drawOtherWays, drawWaysOfWords } from "./ways.mjs";
import { wasAskedFor } from "./calls_to_ask.mjs";

// Of more changes of one kind than this, the first few are told and the others counted.
const MOST_CHANGES = 24;
const FEW_CHANGES = 12;
const MOST_NEW_PARENTS = 4;

const item = (look, name, ...children) => element("li", { class: look }, signOf(name), ...children);

/** An item for each row, or for the first rows and their number where there are many. */
function items(rows, draw) {
  const all = [...rows];
  if (all.length <= MOST_CHANGES) return all.map(draw);
  const shown = all.slice(0, FEW_CHANGES).map(draw);
  return [...shown, element("li", { class: shown[0].className }, `and ${all.length - FEW_CHANGES} more such`)];
}

const objectWords = ({ kind, base, size }) => [`${kindWord(kind)} `, code(String(base)), ` (${size} B)`];

/** Why a thread is ready again: its message was taken, it got one, or its wait was cancelled. */
function reasonOf(view, line) {
  if (line.endpoint === null) return "";
  const sent = line.state === "sending";
  if (view.step.reply.startsWith("delivered")) return sent ? ": its message was received" : ": it received";
  return sent ? `: its send was cancelled (${messageName(line)})` : ": its receive was cancelled";
}

function threadItems(view) {
  const { old, now, ready } = view.changes;
  const again = items(ready, ([was, is]) =>
    item("filled", "ready", "thread ", threadName(view, is.address), " is ready again", reasonOf(view, was)));
  const lines = [...now.values()];
  const stops = ({ kind, address, state }) => kind === "thread" && state !== "ready" && old.has(`thread ${address}`);
  const waits = items(lines.filter(stops), ({ address, state, endpoint }) => {
    const what = endpoint === null ? ` is now ${state}`
      : [` waits now, ${state} on endpoint ${endpoint}`, nameOfObject(view, { kind: "endpoint", object: `endpoint ${endpoint}` })];
    return item("altered", "waits", "thread ", threadName(view, address), what);
  });
  const inboxes = items(lines.filter((line) => line.kind === "inbox"), (line) =>
    item("filled", "message", "thread ", threadName(view, line.address), ` got ${messageName(line)}`));
  return [again, waits, inboxes];
}

function movedItem(view, { from, to }) {
  const same = holdsTheSame(from, to);
  const held = same ? capabilityName(view, to.capability)
    : [capabilityName(view, from.capability), " → ", capabilityName(view, to.capability)];
  const places = ["moved from ", slotName(view, from.address), " to ", slotName(view, to.address)];
  return item("altered", "moved", ...places, ": ", held);
}

const isAnotherParent = ([was, is]) => was.under !== is.under && was.original === is.original && holdsTheSame(was, is);

function alteredWords(view, was, is) {
  if (!holdsTheSame(was, is)) {
    if (was.capability.kind !== "untyped" || is.capability.kind !== "untyped") {
      return [capabilityName(view, was.capability), " → ", capabilityName(view, is.capability)];
    }
    return [kindMark("untyped"), ` used ${was.capability.free} → `, code(String(is.capability.free))];
  }
  const parent = is.under === null ? "nothing" : slotName(view, is.under);
  const mark = is.original ? " now original" : " no longer original";
  return [was.under === is.under ? null : ["now derived from ", parent], was.original === is.original ? null : mark];
}

function alteredItems(view) {
  const pairs = [...view.changes.altered.values()];
  const parents = pairs.filter(isAnotherParent);
  const many = parents.length > MOST_NEW_PARENTS;
  const told = many ? pairs.filter((pair) => !isAnotherParent(pair)) : pairs;
  const each = items(told, ([was, is]) =>
    item("altered", "altered", slotName(view, is.address), " ", alteredWords(view, was, is)));
  return many ? [each, item("altered", "altered", `${parents.length} slots are now derived from another slot`)] : each;
}

/** The slots that were emptied, one by one, or many of them as sums. */
function emptiedItems(view) {
  if (isSummedUp(view.changes)) {
    const { all, rows, draw } = sumsOf(view);
    return [all, items(rows, draw)];
  }
  return items(view.changes.emptied.values(), ({ address, capability }) =>
    item("emptied", "emptied", slotName(view, address), " ", element("s", {}, capabilityName(view, capability))));
}

function slotItems(view) {
  const { filled, moved } = view.changes;
  const filledItem = ({ address, capability }) =>
    item("filled", "filled", slotName(view, address), " ", capabilityName(view, capability));
  if (moved) return [movedItem(view, moved), alteredItems(view)];
  return [emptiedItems(view), items(filled.values(), filledItem), alteredItems(view)];
}

/** An object that ended. With the last capability of an untyped region nothing ends. */
function endedItem(view, object) {
  if (object.kind !== "untyped") return item("emptied", "ended", ...objectWords(object), " ended");
  const { base, size } = object;
  const isInside = ({ capability: { base: start, size: length } }) => start >= base && start + length <= base + size;
  const stays = view.after.slots.some(isInside) ? "; what was made of it stays" : "";
  return item("emptied", "ended", "capability of ", ...objectWords(object), ` gone${stays}`);
}

/** CNodes that no thread leads to any more; of those that hold one another, one line. */
function lostItems(view) {
  const { lost, now } = view.changes;
  const isTold = ([base, circle]) => !now.has(`selfheld ${base}`) && circle.every((other) => other > base);
  return items([...lost].filter(isTold), ([base, circle]) => {
    const bases = code([base, ...circle].join(", "));
    if (circle.length === 0) return item("emptied", "warning", "no thread leads to CNode ", bases, " any more");
    return item("emptied", "warning", "CNodes ", bases, " hold one another, and no thread leads to them any more");
  });
}

/** One line for each thing that changed: first objects and threads, then slots. */
function changeItems(view) {
  const { ended, born, now } = view.changes;
  const selfHeld = [...now.values()].filter((line) => line.kind === "selfheld");
  return [
    items(ended.values(), (object) => endedItem(view, object)),
    items(born.values(), (object) => item("filled", "born", "new ", ...objectWords(object))),
    threadItems(view),
    items(selfHeld, ({ address }) =>
      item("emptied", "warning", "CNode ", code(String(address)), " is now held by its own slots alone")),
    lostItems(view),
    slotItems(view),
  ].flat(Infinity);
}

/** How much changed, in one line. */
function countedChanges({ ended, born, ready, emptied, filled, altered, moved }) {
  const untyped = [...ended.values()].filter(({ kind }) => kind === "untyped").length;
  const counts = [
    [ended.size - untyped, "object", " ended"], [untyped, "untyped", " gone"],
    [born.size, "new object", ""], [ready.length, "thread", " ready again"],
    [moved ? 0 : emptied.size, "slot", " emptied"], [moved ? 0 : filled.size, "slot", " filled"],
    [moved ? 1 : 0, "capability", " moved"], [altered.size, "slot", " altered"],
  ];
  return counts.filter(([count]) => count > 0).map(([count, noun, rest]) => counted(count, noun) + rest).join(", ");
}

function expectationMark(expectation) {
  if (!expectation) return null;
  if (expectation === "met") return element("span", { class: "tag met" }, "✓ as expected");
  return element("span", { class: "tag missed" }, `✗ ${expectation}`);
}

/** The sentence, the reply, and why the call is refused: what a screen reader says at each step. */
export function drawSentence(view) {
  const { step, changes } = view;
  const { trace } = view;
  const told = wasAskedFor(trace, step.number) ? [element("span", { class: "tag branch" }, trace.yours ? "your call" : "what if"), " "] : null;
  const sentence = element("p", { id: "sentence" }, told, sentenceOf(view));
  if (step.number === 0) return [sentence];
  if (view.isAsked) return [sentence, element("p", {}, dim("What does it change? The same key, or button, shows it."))];
  const look = step.reply.startsWith("refused") ? "reply refused" : "reply";
  const isOrder = ({ line }) => line.kind === "sibling";
  const changed = step.changes.length === 0 ? "Nothing changed."
    : step.changes.every(isOrder) ? "The order of siblings changed." : countedChanges(changes);
  const reply = element("p", {}, element("span", { class: look }, step.reply), " ", meaningOf(step.reply), " ",
    expectationMark(step.expectation), " ", dim(changed));
  const shown = [sentence, reply, ...drawWaysOfWords(view)];
  if (step.reasons.length === 0) return shown;
  const reasons = step.reasons.map((reason) => element("li", { class: "code" }, reason));
  return [...shown, element("ul", { class: "reasons", "aria-label": "Why it is refused" }, reasons)];
}

/** The ways of words that are no news, folded; and what changed, one line for each thing. */
export function drawChanges(view) {
  if (view.step.number === 0 || view.isAsked) return [];
  const changed = changeItems(view);
  return [drawOtherWays(view), changed.length === 0 ? null : element("ul", { class: "changes", "aria-label": "What changed" }, changed)];
}
