// What a call took that emptied many slots, as sums: by subtree, or, of many subtrees, by object and badge.
import { code, counted, dim, element, foldBehind } from "./element.mjs";
import { capabilityName, objectName, signOf, slotName } from "./names.mjs";
import { emptiedTrees } from "./changes.mjs";

// Of more subtrees than these, slots are summed up by what they held.
const MOST_TREES = 12;

const badgeOf = ({ kind, badge }) => (kind === "endpoint" && badge !== "0" ? ` badge ${badge}` : "");

/** The lines of the emptied slots that held capabilities of one object with one badge, for each of these. */
function byBadge({ emptied }) {
  const found = new Map();
  for (const line of emptied.values()) {
    const key = `${line.capability.object}${badgeOf(line.capability)}`;
    if (!found.has(key)) found.set(key, []);
    found.get(key).push(line);
  }
  return [...found.values()];
}

const drawPlaces = (view, lines) => () => lines.map(({ address }) => [slotName(view, address), " "]).flat();

const sum = (lines, ...children) =>
  element("li", { class: "emptied", "data-sum": lines.length }, signOf("emptied"), ...children);

/** A slot that was emptied, with the slots that were derived from it. */
function drawTree(view, [top, below]) {
  const held = element("s", {}, capabilityName(view, top.capability));
  const rest = below.length === 0 ? null : foldBehind(`and ${below.length} derived from it`, drawPlaces(view, below));
  return sum([top, ...below], slotName(view, top.address), " ", held, rest);
}

/** Slots that held capabilities of one object with one badge. */
function drawBadge(view, lines) {
  const [{ capability }] = lines;
  const held = element("s", {}, objectName(view, capability), code(badgeOf(capability)));
  return sum(lines, held, foldBehind(counted(lines.length, "slot"), drawPlaces(view, lines)));
}

/** The sums of a step that emptied many slots: how many in all, then the rows to tell, each by itself. */
export function sumsOf(view) {
  const trees = [...emptiedTrees(view.changes)];
  const badges = byBadge(view.changes);
  const isFew = trees.length <= MOST_TREES;
  const all = `${counted(view.changes.emptied.size, "slot")} emptied: ${counted(trees.length, "subtree")}, `
    + `${counted(badges.length, "object")} or badge${badges.length === 1 ? "" : "s"}`;
  const draw = isFew ? drawTree : drawBadge;
  return { all: element("li", { class: "emptied" }, signOf("emptied"), dim(all)), rows: isFew ? trees : badges,
    draw: (row) => draw(view, row) };
}
