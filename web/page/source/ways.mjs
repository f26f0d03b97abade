// The way of each word that a call names, through the CNodes, as boxes: the guard and the slot of each, in bits, as the trace
// tells them.
import { drawBitBox, guardInWords } from "./bit_boxes.mjs";
import { code, counted, dim, element, foldBehind } from "./element.mjs";
import { slotName } from "./names.mjs";

/** What is said of a guard: how many bits it takes, or what it is where the word has other ones. */
function wordsOfGuard({ wanted, isRight, needs }) {
  if (isRight) return `guard, ${counted(wanted.length, "bit")}`;
  return wanted === undefined ? `guard needs ${needs}` : `guard is ${guardInWords(`0b${wanted}`, wanted.length)}`;
}

function drawSlot({ base, slot: { bits, number, isWhole, needs } }) {
  return isWhole ? drawBitBox("slot-bits", bits, `slot ${number} of ${base === 0 ? "root" : base}`)
    : drawBitBox("refused-bits", bits, `slot needs ${needs}`);
}

function drawPart(part) {
  const { guard, slot, over, isRight, unread = "" } = part;
  if (over !== undefined) return drawBitBox("refused-bits", over, `${over.length} left over: no CNode here`);
  return [drawBitBox(isRight ? "passed" : "refused-bits", guard, wordsOfGuard(part)), drawBitBox("unread", unread, "not read"),
    slot === undefined ? null : drawSlot(part)];
}

/** The boxes of a way. */
export const drawBoxes = (parts) => parts.map(drawPart);

/** Whether a way is worth a look: it leads through more than one CNode, or a guard that is not all zeros, or nowhere. */
const isTold = ({ parts, address }) => address === null || parts.length > 1 || parts.some(({ wanted = "" }) => wanted.includes("1"));

function drawWay(view, { name, word, parts, address }) {
  return element("p", { class: address === null ? "lookup fails" : "lookup", role: "group", "aria-label": `The way of ${name} ${word}, in bits` },
    element("span", { class: "of-word" }, dim(`${name} `), code(String(word))), drawBoxes(parts),
    element("span", { class: "end" }, address === null ? "✕ no slot" : ["→ ", slotName(view, address)]));
}

/** A row for each word of the call whose way is worth a look. */
export const drawWaysOfWords = (view) => view.ways.filter(isTold).map((way) => drawWay(view, way));

/** The ways of the other words, behind the words, or null where there are none. */
export function drawOtherWays(view) {
  const others = view.ways.filter((way) => !isTold(way));
  const words = others.map(({ name, word }) => `${name} ${word}`).join(", ");
  return others.length === 0 ? null : foldBehind(`${words}: in bits`, () => others.map((way) => drawWay(view, way)));
}
