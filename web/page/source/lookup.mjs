// The words that lead to slots in a capability space: where no audit stands in the page, nothing tells what a thread can invoke, and the
// page works it out here. That is not proved, and it never says what happened: the ways of the words of a call stand in the trace.

/** A word in decimal, or a long one in hexadecimal. */
export function writeWord(word) {
  return word < 100000n ? String(word) : `0x${word.toString(16)}`;
}

/** Each full slot that some word of a thread leads to, with such a word: a map from addresses to texts. `3/9` is a word
    of which the first 9 bits alone count. */
function wordsLookedUp(places, thread) {
  const { state, machine } = places;
  const words = new Map();
  const seen = new Set();
  function walk(slot, above, bits) {
    const { capability } = slot;
    const key = `${slot.address} ${bits}`;
    const left = bits - capability.guardSize - capability.radix;
    if (left < 0 || seen.has(key)) return;
    seen.add(key);
    const prefix = (above << BigInt(capability.guardSize)) | BigInt(capability.guard);
    for (const inner of places.slotsIn(capability.base)) {
      const index = (inner.address - capability.base) >> machine.slotBits;
      const word = (prefix << BigInt(capability.radix)) | BigInt(index);
      if (left > 0 && inner.capability.kind === "cnode") {
        walk(inner, word, left);
      } else if (!words.has(inner.address)) {
        words.set(inner.address, writeWord(word << BigInt(left)) + (left > 0 ? `/${machine.wordBits - left}` : ""));
      }
    }
  }
  const root = state.slot.get(thread);
  if (root?.capability.kind === "cnode") walk(root, 0n, machine.wordBits);
  return words;
}

/** The full slots that a word of a thread leads to, with such a word each: as the audit of the state has them, or looked up. */
export function wordsOfThread(places, thread) {
  return places.audit?.of(thread).words ?? wordsLookedUp(places, thread);
}

/** The full slots that some index and depth name from a CNode's capability: those from which a copy through it can be
    made. */
export function slotsFrom(places, root) {
  const found = new Map();
  const seen = new Set();
  function walk({ base, radix, guardSize }, bits) {
    const left = bits - guardSize - radix;
    const key = `${base} ${left}`;
    if (left < 0 || seen.has(key)) return;
    seen.add(key);
    for (const inner of places.slotsIn(base)) {
      found.set(inner.address, inner);
      if (inner.capability.kind === "cnode") walk(inner.capability, left);
    }
  }
  walk(root, places.machine.wordBits);
  return [...found.values()];
}
