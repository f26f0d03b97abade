// The bits of a word whose lookup fails, as boxes: those that led to a CNode, those that it refuses, and those behind them. All
// of it is read off the reason that the program gives, and stands below it.
import { drawBitBox, guardInWords, inBits } from "../../page/source/bit_boxes.mjs";
import { counted, element } from "../../page/source/element.mjs";
import { missIn } from "../../page/source/way.mjs";

const WORD = /^(?:cap|root|src_root|index|src_index) (\d+)(?: @\S+)?(?: (?:src_)?depth (\d+)(?: @\S+)?)? is looked up from /mu;
/** How many bits are left where the lookup fails, how many of them are refused there, and why. */
function failureIn(reason) {
  const miss = reason.split("\n").map(missIn).find(Boolean);
  if (!miss) return undefined;
  const { guard, size, radix, isOver } = miss;
  const why = isOver ? "no CNode is there to go on"
    : radix !== undefined ? `a slot's number has ${counted(radix, "bit")}`
      : guard === undefined ? `the guard has ${counted(size, "bit")}` : `the guard is ${guardInWords(guard, size)}`;
  return { ...miss, why };
}

/** Draws the bits of the lookup that a reason tells of, or gives null where it tells of none; a word without a depth has
    `wordBits`. */
export function drawBits(reason, wordBits) {
  const [, word, depth = wordBits] = WORD.exec(reason) ?? [];
  const failure = word === undefined ? undefined : failureIn(reason);
  if (!failure) return null;
  const { left, refused, why } = failure;
  const bits = inBits(word, depth).slice(-Number(depth));
  const passed = bits.length - left;
  const parts = [drawBitBox("passed", bits.slice(0, passed), `${counted(passed, "bit")} passed`),
    drawBitBox("refused-bits", bits.slice(passed, passed + refused), why), drawBitBox("unread", bits.slice(passed + refused), "not read")];
  return element("p", { class: "lookup", role: "group", "aria-label": "The bits of the lookup, from the left" }, parts);
}
