// The derivation forest as nested lists: below each slot stands what was derived from it. Slots that a call emptied stay
// in their old place for that one step, struck out; of many, each that was derived from none of the others is told, and
// those that were derived from it are counted.
import { dim, element, fold, foldBehind, heading, sign } from "./element.mjs";
import { capabilityName, nameOfSlot, ringOf, signOf, slotName } from "./names.mjs";
import { emptiedTrees, isSummedUp, markOf } from "./changes.mjs";
import { inOrder } from "./order.mjs";
import { sentenceOf } from "./sentence.mjs";

// Of more unchanged or changed siblings than these, the rest is folded behind the first few.
const MOST_UNCHANGED = 10;
const FEW_UNCHANGED = 6;
const MOST_CHANGED = 40;
const FEW_CHANGED = 20;
// What is scrolled to stands at least so many pixels from the edge.
const LEAST_ABOVE = 40;

/** The rows to draw: all full slots, and those that the call emptied. */
const rowsOf = (view) => [...view.after.slots, ...view.changes.emptied.values()];

/** The rows below each slot by its address, and those below none under null, in the kernel's order. */
function childrenOf(view, rows) {
  const { emptied, old } = view.changes;
  const isEmptied = (row) => emptied.get(row.address) === row;
  const lineOf = (row) => (isEmptied(row) ? old.get(`sibling ${row.address}`) : view.state.sibling.get(row.address));
  const inFront = (row) => lineOf(row)?.after ?? null;
  const present = new Set(rows.map((row) => row.address));
  const children = new Map();
  for (const row of rows) {
    const parent = present.has(row.under) ? row.under : null;
    if (!children.has(parent)) children.set(parent, []);
    children.get(parent).push(row);
  }
  return new Map([...children].map(([parent, below]) => [parent, inOrder(below, inFront, isEmptied)]));
}

/** The addresses that are always shown: what changed or is named by the call, and all that it was derived from. */
function shownAddresses(view, rows) {
  const byAddress = new Map(rows.map((row) => [row.address, row]));
  const shown = new Set();
  for (const row of rows) {
    if (!markOf(view.changes, row) && !view.isNamed(row.address)) continue;
    for (let above = row; above && !shown.has(above.address); above = byAddress.get(above.under)) {
      shown.add(above.address);
    }
  }
  return shown;
}

function drawNode(view, row) {
  const mark = markOf(view.changes, row);
  const held = capabilityName(view, row.capability);
  const content = mark === "moved" ? [dim("moved to "), slotName(view, view.changes.moved.to.address)]
    : mark === "emptied" ? element("s", {}, held) : held;
  const diamond = element("span", { class: "original", title: "original" }, sign("◆", "original"), " ");
  const look = `node ${mark}${ringOf(view, row.address)}`;
  return element("span", { class: look }, signOf(mark), slotName(view, row.address), nameOfSlot(view, row.address), " ",
    row.original ? diamond : null, content);
}

/** Siblings that are told only when asked for, where there are many: all but the first few. */
function folded(rows, most, few) {
  return new Set(rows.length > most ? rows.slice(few) : []);
}

/** The forest of a view: the rows below each slot, those that are always shown, and, where the call emptied many, how
    many were derived from each that is told. */
class Forest {
  constructor(view) {
    const rows = rowsOf(view);
    Object.assign(this, { view, children: childrenOf(view, rows), shown: shownAddresses(view, rows), sums: new Map() });
    if (isSummedUp(view.changes)) this.sums = emptiedTrees(view.changes);
  }

  isLeaf(row) {
    return !this.children.has(row.address) || this.sums.has(row);
  }

  /** What stands below a row: a list, or, of slots that were emptied with it, how many. */
  drawBelow(row) {
    const below = this.children.get(row.address);
    if (!below) return null;
    const count = this.sums.get(row)?.length;
    const list = () => this.drawList(below);
    return count ? foldBehind(`and ${count} derived from it`, list) : list();
  }

  drawRow(row) {
    const attributes = { "data-key": row.address, "data-slot": row.address,
      "data-mark": markOf(this.view.changes, row) || undefined };
    return element("li", attributes, drawNode(this.view, row), this.drawBelow(row));
  }

  drawList(rows) {
    const { view, shown } = this;
    const changedLeaf = (row) => shown.has(row.address) && !view.isNamed(row.address) && this.isLeaf(row);
    const unchanged = folded(rows.filter((row) => !shown.has(row.address)), MOST_UNCHANGED, FEW_UNCHANGED);
    const changed = folded(rows.filter(changedLeaf), MOST_CHANGED, FEW_CHANGED);
    const draw = (row) => this.drawRow(row);
    const more = (hidden, what) => (hidden.size === 0 ? null
      : element("li", { "data-key": what }, fold(hidden.size, what, () => element("ul", {}, [...hidden].map(draw)))));
    const told = rows.filter((row) => !unchanged.has(row) && !changed.has(row)).map(draw);
    return element("ul", {}, told, more(unchanged, "(unchanged)"), more(changed, "(changed)"));
  }

  draw() {
    const list = this.drawList(this.children.get(null) ?? []);
    list.className = "forest";
    return list;
  }
}

const drawTree = (view, label) => element("div", { class: "forest-scroll", tabindex: "0", role: "region", "aria-label": label }, new Forest(view).draw());

/** The derivation forest of the state of a view. */
export function drawForest(view) {
  const remark = `${view.after.slots.length} full slots; below each slot stands what was derived from it, in the `
    + "kernel's order";
  return [heading("Derivation forest", remark), drawTree(view, "Derivation forest, tree")];
}

/** The forest of the set-up's own run, which stands beside that of a call that it does not have. */
export function drawForestAsItWas(view) {
  const { step: { number, reply }, trace: { steps } } = view;
  const behind = number === 0 ? "after boot" : `after call ${number}`;
  const told = number === 0 ? [] : [sentenceOf(view), " ", element("span", { class: reply.startsWith("refused") ? "reply refused" : "reply" }, reply)];
  const end = number === steps.length - 1 ? ", the last one" : "";
  return [heading("As it was", `the set-up itself, ${behind}${end}`), element("p", {}, told), drawTree(view, "Derivation forest as it was, tree")];
}

/** Scrolls the forest so that what a step changed is in sight, or what it names where nothing changed: the first of it
    and as much behind it as there is room for. */
export function showChange(scroller) {
  if (scroller === null) return;
  const changed = [...scroller.querySelectorAll(".node:is(.filled, .emptied, .altered, .moved)")];
  const nodes = changed.length > 0 ? changed : [...scroller.querySelectorAll(".node.named")];
  if (nodes.length === 0) return;
  const places = nodes.map((node) => node.getBoundingClientRect());
  const window = scroller.getBoundingClientRect();
  const first = places[0].top - window.top;
  const last = places.at(-1).bottom - window.top;
  if (first >= 0 && last <= window.height) return;
  const isAbove = first < 0 || last - first + LEAST_ABOVE > window.height;
  scroller.scrollTop += isAbove ? first - LEAST_ABOVE : last - window.height + LEAST_ABOVE;
}
