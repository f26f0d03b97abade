// How a thread names a slot in a call: by a word that is looked up from its root, or by an index and a depth from a CNode that
// it has a word for. These are the page's own lookups, the other way round; docs/behaviour.md has the rules.
import { inBits } from "./bit_boxes.mjs";

/** So many CNodes are gone through on the way to a slot. */
const MOST_STEPS = 4096;

/** All ways from a CNode's capability to slots: for each CNode on them its base and slots, and the bits that lead to it, `prefix`
    and its `length`, which end with its guard. */
function* waysFrom(places, root) {
  const { machine: { wordBits } } = places;
  const todo = [{ capability: root, prefix: "" }];
  for (let at = 0; at < todo.length && at < MOST_STEPS; at += 1) {
    const { capability, prefix } = todo[at];
    const { base, radix, guard, guardSize } = capability;
    const bits = prefix + inBits(guard, guardSize);
    if (bits.length + radix > wordBits) continue;
    yield { base, radix, bits };
    if (bits.length + radix === wordBits) continue;
    for (const { address, capability: inner } of places.slotsIn(base)) {
      if (inner.kind === "cnode") todo.push({ capability: inner, prefix: bits + inBits((address - base) >> places.machine.slotBits, radix) });
    }
  }
}

/** The bits that lead from a CNode's capability to a slot, each way to it. */
function* bitsTo(places, root, slot) {
  if (root?.kind !== "cnode") return;
  const { slotBits } = places.machine;
  for (const { base, radix, bits } of waysFrom(places, root)) {
    const number = (slot - base) >> slotBits;
    if (slot >= base && number < 2 ** radix && base + (number << slotBits) === slot) yield bits + inBits(number, radix);
  }
}

/** The word by which a thread names a slot, as a number, or null. Where bits are left a lookup goes on in a CNode. */
export function wordFor(places, thread, slot) {
  const { state, machine: { wordBits } } = places;
  const root = state.thread.has(thread) ? state.slot.get(thread)?.capability : undefined;
  const goesOn = state.slot.get(slot)?.capability.kind === "cnode";
  for (const bits of bitsTo(places, root, slot)) {
    if (bits.length === wordBits || !goesOn) return BigInt(`0b${bits || "0"}`) << BigInt(wordBits - bits.length);
  }
  return null;
}

/** How a thread names a slot by a CNode, an index and a depth: `{ cap, index, depth }`, or null. The fewer bits the better, but
    that a CNode which the thread begins in comes first. */
export function placeFor(places, thread, slot) {
  const { state, machine: { wordBits } } = places;
  const found = places.slots.filter(({ capability }) => capability.kind === "cnode").flatMap(({ address, capability }) => {
    const cap = wordFor(places, thread, address);
    const [bits] = cap === null ? [] : bitsTo(places, capability, slot);
    return bits === undefined ? [] : [{ cap, index: BigInt(`0b${bits || "0"}`), depth: bits.length }];
  });
  const whole = found.find(({ depth }) => depth === wordBits);
  return whole ?? found.sort((one, other) => one.depth - other.depth)[0] ?? null;
}

/** The word by which a thread names a capability of the CNode that a slot lies in, and the slot's number there, or null. */
export function nodeFor(places, thread, slot) {
  const node = places.nodeAround(slot);
  const held = node ? places.slots.filter(({ capability }) => capability.object === node.object) : [];
  const words = held.map(({ address }) => wordFor(places, thread, address)).filter((word) => word !== null);
  return words.length > 0 ? { root: words[0], offset: (slot - node.base) >> places.machine.slotBits } : null;
}
