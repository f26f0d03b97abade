// A call as a sentence. The slots in it are those that the ways of its words lead to.
import { code, counted, dim } from "./element.mjs";
import { guardInWords } from "./bit_boxes.mjs";
import { KINDS_BY_NUMBER, capabilityName, kindWord, nameOfWord, slotName, threadName } from "./names.mjs";

const RIGHTS = "wrgp";
const MOST_MEMORY_BITS = 20;

/** The guard that a guard word sets, in bits: its size stands in the low bits, its value above them. */
export function guardIn(word, machine) {
  const sizeBits = machine.wordBits === 64 ? 6n : 5n;
  const size = BigInt(word) & ((1n << sizeBits) - 1n);
  return guardInWords((BigInt(word) >> sizeBits) & ((1n << size) - 1n), size);
}

const guardOf = (word, machine) => ["the guard word ", code(word), dim(` (guard ${guardIn(word, machine)})`)];

/** Rights by their bits, as the trace writes them. */
function rightsOf(bits) {
  return [...RIGHTS].map((right, place) => ((Number(bits) >> place) & 1 ? right : "-")).join("");
}

/** A slot that is named by an index and a depth, and the capability that it held before the call; what is not told of a way is not
    guessed. */
function slotNamed(view, address, index, depth, capability) {
  if (address === undefined) return ["index ", code(index), ` of ${depth} bits`];
  if (address === null) return dim(`no slot (index ${index} of ${depth} bits leads to none)`);
  const held = capability ? [" ", capabilityName(view, capability, true)] : null;
  return [slotName(view, address), nameOfWord(view, index, address), held];
}

const target = (view, words) => slotNamed(view, view.named.target, words.index, words.depth, view.held.target);
const source = (view, words) => slotNamed(view, view.named.source, words.src_index, words.src_depth, view.held.source);

function invoked(view, words) {
  if (view.named.invoked === undefined) return ["its capability ", code(words.cap)];
  const held = view.held.invoked ? [" ", capabilityName(view, view.held.invoked, true)] : null;
  const slot = slotName(view, view.named.invoked);
  const name = nameOfWord(view, words.cap, view.named.invoked);
  return ["its capability ", code(words.cap), name, " (", slot, held, ")"];
}

/** The power of two with an exponent that is written out: in full where it fits the memory. */
const powerOf = (exponent) => (Number(exponent) <= MOST_MEMORY_BITS ? String(2 ** Number(exponent)) : `2^${exponent}`);

function retype(view, words) {
  const kind = KINDS_BY_NUMBER[words.kind];
  const noun = kind ? kindWord(kind) : `object of kind ${words.kind}`;
  const made = kind === "untyped" ? `${words.count} untyped` : counted(Number(words.count), noun);
  const size = kind === "cnode" ? ` of ${powerOf(words.size_bits)} slot${words.size_bits === "0" ? "" : "s"}`
    : kind === "untyped" ? ` of ${powerOf(words.size_bits)} bytes` : "";
  return [invoked(view, words), ` into ${made}${size}, in `, filledSlots(view, words)];
}

/** The slots that a retype fills. */
function filledSlots(view, { offset, count }) {
  const node = view.named.filled;
  if (node === undefined) return ["slots from ", code(offset), " on"];
  if (!node) return dim("no CNode");
  const last = BigInt(offset) + BigInt(count) - 1n;
  return code(`${node.base || "root"}[${offset}${last > BigInt(offset) ? `..${last}` : ""}]`);
}

const fromTo = (view, words) => [source(view, words), " to ", target(view, words)];

function copy(view, words) {
  const limited = words.rights !== "15" ? [", with no rights but ", code(rightsOf(words.rights))] : null;
  return [fromTo(view, words), limited];
}

/** The data that a mint or a mutate sets: a CNode's guard, or else a badge. */
function dataOf(view, { word }) {
  if (view.named.source === undefined) return [", with the word ", code(word)];
  if (view.held.source?.kind === "cnode") return [", with ", guardOf(word, view.trace.machine)];
  return [", with the badge ", code(word)];
}

const send = (view, words) => ["label ", code(words.label), words.words ? [", words ", code(words.words)] : null,
  " by ", invoked(view, words)];

/** The thread whose control block is invoked, where the word leads to one. */
function threadInvoked(view, words) {
  const held = view.held.invoked;
  const thread = held?.kind === "tcb" ? ["thread ", threadName(view, held.base), " by "] : null;
  return [thread, invoked(view, words)];
}

function setSpace(view, words) {
  const guard = words.word === "0" ? null : [", with ", guardOf(words.word, view.trace.machine)];
  const held = view.held.root ? [" ", capabilityName(view, view.held.root, true)] : null;
  const root = view.named.root === undefined ? ["its capability ", code(words.root)] : [slotName(view, view.named.root), held];
  return ["the CSpace root of ", threadInvoked(view, words), " to ", root, guard];
}

/** The verb of each operation, and what comes behind it. */
const SENTENCES = {
  retype: ["retype", retype],
  copy: ["copy", copy],
  mint: ["mint", (view, words) => [copy(view, words), dataOf(view, words)]],
  move: ["move", fromTo],
  mutate: ["move", (view, words) => [fromTo(view, words), dataOf(view, words)]],
  delete: ["delete", target],
  revoke: ["revoke", (view, words) => ["what was derived from ", target(view, words)]],
  cancel_badged: ["cancel", (view, words) => ["the sends that wait with the badge of ", target(view, words)]],
  send: ["send", send],
  nbsend: ["send", (view, words) => [send(view, words), ", without waiting"]],
  recv: ["receive", (view, words) => ["by ", invoked(view, words)]],
  nbrecv: ["receive", (view, words) => ["by ", invoked(view, words), ", without waiting"]],
  set_space: ["set", setSpace],
  suspend: ["suspend", threadInvoked],
  resume: ["resume", threadInvoked],
};

/** What the thread does, or, where it is refused or this is not told yet, what it asks for. */
function verbOf(verb, reply, isAsked) {
  if (isAsked || reply.startsWith("refused")) return ` asks to ${verb} `;
  return ` ${verb === "copy" ? "copies" : `${verb}s`} `;
}

/** The sentence of a step, as children of an element. */
export function sentenceOf(view) {
  const { number, operation, thread, words, reply } = view.step;
  if (number === 0) return ["The state after boot, before the first call."];
  const [verb, write] = SENTENCES[operation];
  const does = verbOf(verb, reply, view.isAsked);
  return [code(String(number)), " · thread ", threadName(view, thread), does, write(view, words), "."];
}
