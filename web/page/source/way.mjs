// The way of a word of a call, as a line of the trace tells it (docs/trace.md): the guards and indices in it as bits, and which slots a
// call names by it. Nothing is looked up here.
import { inBits } from "./bit_boxes.mjs";

const NUMBER = "(?:0|[1-9][0-9]{0,19})";
const NODE = ` guard (${NUMBER}) size (${NUMBER}) index ([01]{1,64}) slot (${NUMBER})`;

/** A line of a way. */
export const WAY = new RegExp(`^  way (cap|root|src_root|index|src_index) (${NUMBER}) bits (${NUMBER}) from (${NUMBER})((?:${NODE})*)(?:: (.+))?$`);

const MISSES = [
  [/^its guard is (\d+) of size (\d+); the next \d+ of the (\d+) bits left read \d+$/u,
    ([guard, size, left]) => ({ left, refused: size, guard, size })],
  [/^its guard has size (\d+); bits left: (\d+)$/u, ([size, left]) => ({ left, refused: left, size })],
  [/^its radix is (\d+); bits left behind the guard: (\d+)$/u, ([radix, left]) => ({ left, refused: left, radix })],
  [/^no CNode is there; bits left over: (\d+)$/u, ([left]) => ({ left, refused: left, isOver: true })],
];

/** Why a lookup fails, as a line says it: how many bits are left there, how many of them are refused, and the guard or its size, the
    radix, or that there is no CNode. Null for another line. */
export function missIn(line) {
  const [[found, read] = []] = MISSES.map(([form, as]) => [form.exec(line), as]).filter(([it]) => it);
  return found ? read(found.slice(1).map(Number)) : null;
}

/** The box of what fails, and of the bits behind it. */
function partsMissed(bits, { left, refused, guard, size, radix, isOver }) {
  const at = bits.length - left;
  const [first, unread] = [bits.slice(at, at + refused), bits.slice(at + refused)];
  if (isOver) return [{ over: first }];
  if (radix !== undefined) return [{ slot: { bits: first, isWhole: false, needs: radix } }];
  return [{ guard: first, needs: size, wanted: guard === undefined ? undefined : inBits(guard, size), isRight: false, unread }];
}

/** The guard that is passed in front of too few bits for a slot. */
function guardPassed(bits, read, parts) {
  const [part] = parts;
  if (part?.slot === undefined) return parts;
  const guard = bits.slice(read, bits.length - part.slot.bits.length);
  return [{ ...part, guard, wanted: guard, isRight: true }];
}

/** The CNodes that a way leads through: the guard and the slot of each, in bits. */
function nodesIn(text, machine) {
  return [...text.matchAll(new RegExp(NODE, "g"))].map(([, value, size, index, slot]) => {
    if (Number(slot) >= machine.memory) throw new Error(`${slot} is no address in the memory`);
    const guard = inBits(value, Math.min(Number(size), machine.wordBits));
    const number = Number.parseInt(index, 2);
    return { guard, wanted: guard, isRight: true, base: Number(slot) - (number << machine.slotBits),
      slot: { bits: index, number, address: Number(slot), isWhole: true } };
  });
}

/** A way, of what WAY finds in its line: the word's `name`, the `word`, its `bits`, the `parts` to draw, and the `address` of the slot
    that it leads to, or null. Bits of a word behind its last slot are ignored. */
export function readWay([line, name, word, size, , nodes, ...rest], machine) {
  const miss = rest.at(-1);
  const isIndex = name.endsWith("index");
  if (Number(size) < 1 || Number(size) > machine.wordBits) throw new Error(`no way has ${size} bits`);
  const bits = inBits(BigInt.asUintN(Number(size), BigInt(word)), size);
  const passed = nodesIn(nodes, machine);
  const read = passed.map(({ guard, slot }) => guard + slot.bits).join("");
  const missed = miss === undefined ? null : miss === "no CNode is there" ? { left: bits.length, refused: bits.length, isOver: true } : missIn(miss);
  if (miss !== undefined && missed === null) throw new Error(`no end of a way: ${miss}`);
  if (!bits.startsWith(read) || missed && missed.left > bits.length - read.length || !missed && isIndex && read !== bits) {
    throw new Error(`these are not the bits of ${name} ${word}`);
  }
  const parts = missed ? [...passed, ...guardPassed(bits, read.length, partsMissed(bits, missed))] : passed;
  return { line, name, word, bits, parts, address: missed ? null : passed.at(-1)?.slot.address ?? null };
}

/** The slots that a call names, each an address, null where the word leads to none, or undefined where the trace does not say:
    `invoked`, `root`, `source`, `target`; and `filled`, the CNode that a retype fills. */
export function namedSlots(state, { operation, words, ways }) {
  if (ways.length === 0) return {};
  const endOf = (name) => (words[name] === undefined ? undefined : ways.find((way) => way.name === name)?.address ?? null);
  const named = { invoked: endOf("cap"), root: endOf("root"), source: endOf("src_index") };
  if (operation !== "retype") return { ...named, target: endOf("index") };
  const into = state.slot.get(words.depth === "0" ? named.root : endOf("index"))?.capability;
  return { ...named, filled: into?.kind === "cnode" ? into : null };
}
