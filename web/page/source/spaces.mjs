// The CNodes with their slots, as one thread sees them: each slot that it can name has the word that names it.
import { code, dim, element, fold, heading } from "./element.mjs";
import { capabilityName, kindMark, nameOfObject, nameOfSlot, namesOfThread, objectName, ringOf, signOf, slotName } from "./names.mjs";
import { markOf } from "./changes.mjs";
import { wordsOfThread } from "./lookup.mjs";
import { sourceOf } from "./reach.mjs";

// In a CNode of few slots each empty one has a cell. Of more full slots than these, runs of unchanged ones are folded.
const FEW_SLOTS = 16;
const MOST_FULL = 160;
const MOST_UNCHANGED = 64;
const MOST_CHANGED = 200;
const LONG_WORD = 7;

/** The CNodes that are live, and those that ended at this step. */
function nodesOf(view) {
  const ended = view.before.nodes.filter((node) => view.changes.ended.has(node.object));
  const told = (nodes, isEnded) => nodes.map((node) => ({ ...node, ended: isEnded }));
  return [...told(view.after.nodes, false), ...told(ended, true)];
}

/** The slots of a CNode that are full, or were emptied at this step, by their numbers. */
function rowsOf(view, node) {
  const inside = ({ address }) => address >= node.base && address < node.base + node.size;
  const emptied = [...view.changes.emptied.values()].filter(inside);
  const rows = node.ended ? emptied : [...view.after.slotsIn(node.base), ...emptied];
  return rows.sort((one, other) => one.address - other.address);
}

/** The word that names a slot, where it is not the slot's own number. */
function drawWord(word, number) {
  if (word === undefined || word === String(number)) return null;
  return element("span", { class: word.length > LONG_WORD ? "word long" : "word", title: word }, `→ ${word}`);
}

function drawCell(view, node, row, words) {
  const mark = markOf(view.changes, row);
  const gone = mark === "emptied" || mark === "moved";
  const word = gone ? undefined : words.get(row.address);
  const held = capabilityName(view, row.capability, true);
  const content = mark === "moved" ? ["moved to ", slotName(view, view.changes.moved.to.address)]
    : mark === "emptied" ? element("s", {}, held) : held;
  const number = (row.address - node.base) >> view.trace.machine.slotBits;
  const look = ["cell", mark, ringOf(view, row.address).trim(), !gone && word === undefined ? "far" : "",
    word === String(number) ? "own" : ""];
  return element("li", { class: look.filter(Boolean).join(" "), title: `slot at address ${row.address}`, "data-slot": row.address },
    signOf(mark), element("b", {}, String(number)), nameOfSlot(view, row.address), " ", drawWord(word, number), element("div", {}, content));
}

/** Cells for empty slots from one number up to another: one for each in a small CNode, else one for all. */
function drawGap(view, node, from, to) {
  const empty = (number, text) => element("li", { class: "cell empty", "data-slot": node.base + (number << view.trace.machine.slotBits) }, text);
  if (from >= to) return [];
  if (node.slots > FEW_SLOTS) return [empty(from, `${from}${to - from > 1 ? `–${to - 1}` : ""} empty`)];
  return Array.from({ length: to - from }, (_, step) => empty(from + step, String(from + step)));
}

/** The cells of a CNode in order. */
class Cells {
  constructor(view, node, words) {
    Object.assign(this, { view, node, words, cells: [], hidden: [], shown: 0, next: 0 });
  }

  /** Adds a row, or keeps it for a fold where enough are shown. */
  add(row, many) {
    const number = (row.address - this.node.base) >> this.view.trace.machine.slotBits;
    const changed = markOf(this.view.changes, row) !== "" || this.view.isNamed(row.address);
    const hide = many && this.shown > (changed ? MOST_CHANGED : MOST_UNCHANGED);
    if (!hide) this.unhide();
    if (!hide || this.hidden.length === 0) this.cells.push(drawGap(this.view, this.node, this.next, number));
    if (hide) this.hidden.push(row);
    else this.cells.push(drawCell(this.view, this.node, row, this.words));
    this.shown += hide ? 0 : 1;
    this.next = number + 1;
  }

  /** Folds the rows that were kept. */
  unhide() {
    const rows = this.hidden;
    if (rows.length === 0) return;
    const drawRow = (row) => drawCell(this.view, this.node, row, this.words);
    const draw = () => element("ul", { class: "cells" }, rows.map(drawRow));
    this.cells.push(element("li", { class: "cell empty wide" }, fold(rows.length, "full slots", draw)));
    this.hidden = [];
  }
}

/** What is said of a CNode that no thread leads to. */
function lossOf(view, { base, ended }) {
  const circle = ended ? undefined : view.after.lostNodes().get(base);
  const own = view.state.selfheld.has(base) ? ["held only by its own slots"] : [];
  if (circle === undefined) return own;
  const others = circle.length > 0 ? [`held in a circle with ${circle.join(", ")}`] : [];
  return ["no thread leads here", ...own, ...others];
}

function drawNode(view, node, words) {
  const rows = rowsOf(view, node);
  const cells = new Cells(view, node, words);
  for (const row of rows) cells.add(row, rows.length > MOST_FULL);
  cells.unhide();
  const name = objectName(view, node);
  const title = element("h3", { "data-node": node.ended ? undefined : node.base },
    node.ended ? [element("s", {}, name), " ended"] : name,
    node.base === 0 ? " the root CNode" : nameOfObject(view, node), " ", dim(`${node.slots} slots`), " ",
    lossOf(view, node).map((text) => [element("span", { class: "tag missed" }, text), " "]));
  return [title, element("ul", { class: "cells" }, cells.cells, drawGap(view, node, cells.next, node.slots))];
}

function drawRoot(view, thread, chosen) {
  const slot = view.state.slot.get(thread);
  const emptied = view.changes.emptied.get(thread);
  const mark = emptied ? "emptied" : slot ? markOf(view.changes, slot) : "";
  const held = slot ? capabilityName(view, slot.capability)
    : emptied ? element("s", {}, capabilityName(view, emptied.capability)) : dim("no root");
  const look = `cell ${mark}${thread === chosen ? " chosen" : ""}`;
  return element("li", { class: look, title: `slot at address ${thread}` },
    signOf(mark), code(String(thread)), namesOfThread(view, thread), element("div", {}, held));
}

/** The threads to choose from, and the one that is chosen: the reader's choice while it lives, or else the caller. */
function chooseThread(view, wanted) {
  const threads = view.state.sorted("thread").map(({ address }) => address);
  const caller = Number(view.step.thread);
  return { threads, chosen: [wanted, caller].find((thread) => threads.includes(thread)) ?? threads[0] };
}

function drawChoice(view, threads, chosen, choose) {
  const name = (thread) => [String(thread), ...(view.trace.names.get(String(thread)) ?? [])].join(" ");
  const drawOption = (thread) => element("option", { value: thread, selected: thread === chosen }, name(thread));
  const options = threads.map(drawOption);
  const select = element("select", { id: "seer", "aria-label": "Seen by thread" }, options);
  select.addEventListener("change", () => choose(Number(select.value)));
  return select;
}

/** The capability spaces of the state behind a step, as a thread sees them; `choose` is told of another choice. */
export function drawSpaces(view, wanted, choose) {
  const { threads, chosen } = chooseThread(view, wanted);
  const words = chosen === undefined ? new Map() : wordsOfThread(view.after, chosen);
  const bits = view.after.audit ? "" : " (“/9”: its first 9 bits alone count)";
  const remark = `“→ n” is a word that names the slot in a call${bits}, where it is not the slot's own number; dashed: no word of this `
    + `thread leads there, though an index with a depth may. ${sourceOf(view.after)}`;
  return [heading("Capability spaces", "as seen by thread ", drawChoice(view, threads, chosen, choose)),
    element("p", { class: "dim" }, remark),
    nodesOf(view).map((node) => drawNode(view, node, words)),
    element("h3", {}, kindMark("tcb"), "CSpace roots ", dim("where each thread's lookups begin")),
    element("ul", { class: "cells" }, threads.map((thread) => drawRoot(view, thread, chosen)))];
}
