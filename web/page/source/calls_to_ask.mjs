// The calls that a reader can ask for by pointing at a slot: what each of the fifteen operations takes, and how it is written.
import { nodeFor, placeFor, wordFor } from "./naming.mjs";

/** Whether a call of a trace was asked for: it stands behind those of the set-up, and is not the goal of an exercise. */
export const wasAskedFor = ({ branch, yours }, number) => branch !== undefined && number > branch && number !== yours?.goal;

const ENDPOINT = { slot: "by the slot" };
const SOURCE = { slot: "the slot", to: "into the slot" };
/** For each operation what the slots are for, and which fields it has besides. */
export const OPERATIONS = {
  send: { ...ENDPOINT, fields: ["label"] }, nbsend: { ...ENDPOINT, fields: ["label"] }, recv: ENDPOINT, nbrecv: ENDPOINT,
  copy: { ...SOURCE, fields: ["rights"] }, mint: { ...SOURCE, fields: ["rights", "word"] }, move: SOURCE, mutate: { ...SOURCE, fields: ["word"] },
  delete: { slot: "the slot" }, revoke: { slot: "below the slot" }, cancel_badged: { slot: "by the slot" },
  retype: { slot: "the slot", to: "from the slot", fields: ["kind", "size_bits", "count"] },
  set_space: { slot: "of the slot", to: "to the slot", fields: ["word"] }, suspend: { slot: "the slot" }, resume: { slot: "the slot" },
};
const ON_CNODES = ["copy", "mint", "move", "mutate", "delete", "revoke", "cancel_badged"];

/** Thrown where a thread has no name for a slot. */
class NoName extends Error {}

function required(found, what) {
  if (found === null) throw new NoName(`No ${what} of this thread leads there: it cannot name that slot.`);
  return found;
}

/** The keys of a call on CNodes: the slot that is filled or emptied, and the source. */
function onCNodes(places, { operation, thread, slot, to }) {
  const target = required(placeFor(places, thread, to ?? slot), "word and index");
  if (!OPERATIONS[operation].to) return Object.entries(target);
  const { cap: root, index, depth } = required(placeFor(places, thread, slot), "word and index");
  return [...Object.entries(target), ["src_root", root], ["src_index", index], ["src_depth", depth]];
}

function byWords(places, { operation, thread, slot, to }) {
  const cap = ["cap", required(wordFor(places, thread, slot), "word")];
  if (operation === "set_space") return [cap, ["root", required(wordFor(places, thread, to), "word")]];
  if (operation !== "retype") return [cap];
  const { root, offset } = required(nodeFor(places, thread, to), "word for its CNode");
  return [cap, ["root", root], ["offset", BigInt(offset)]];
}

/** A call as `{ pairs }`, its keys with their values; or `{ fault }`, why the thread cannot make it. */
export function callOf(places, asked) {
  const { operation, thread, fields } = asked;
  try {
    const named = ON_CNODES.includes(operation) ? onCNodes(places, asked) : byWords(places, asked);
    const given = (OPERATIONS[operation].fields ?? []).map((key) => [key, BigInt(fields[key] || 0)]);
    return { pairs: [["thread", BigInt(thread)], ["op", operation], ...named, ...given].map(([key, value]) => [key, written(key, value)]) };
  } catch (fault) {
    if (fault instanceof NoName) return { fault: fault.message };
    if (fault instanceof SyntaxError) return { fault: "A number is written as 7, 0x1f or 0b101." };
    throw fault;
  }
}

const MOST_IN_TOML = 1n << 63n;

/** A value as TOML has it: an index in bits, so that its guards can be seen, and a large number as a text. */
function written(key, value) {
  if (typeof value === "string") return `"${value}"`;
  const isIndex = key.endsWith("index") && value > 99n;
  const text = isIndex ? `0b${value.toString(2)}` : String(value);
  return BigInt(value) < MOST_IN_TOML ? text : `"0x${value.toString(16)}"`;
}
