// How capabilities, objects, slots and words are written on the page.
import { code, dim, element, sign } from "./element.mjs";
import { guardInWords } from "./bit_boxes.mjs";

const KIND_WORDS = { untyped: "untyped", endpoint: "endpoint", cnode: "CNode", tcb: "thread" };
const KIND_LETTERS = { untyped: "U", endpoint: "E", cnode: "C", tcb: "T" };
const MOST_NAMES = 3;

/** The kinds of objects by the numbers that a retype takes. */
export const KINDS_BY_NUMBER = { 0: "untyped", 1: "tcb", 2: "endpoint", 4: "cnode" };

/** The signs of the page, each with the word that a screen reader speaks. */
const SIGNS = {
  filled: ["+", "filled"], emptied: ["−", "emptied"], altered: ["~", "altered"], moved: ["⇒", "moved"],
  ended: ["✕", "ended"], born: ["★", "new"], ready: ["▶", "ready"], waits: ["…", "waits"], message: ["✉", "message"],
  warning: ["!", "warning"],
};

export const signOf = (name) => (name ? [sign(...SIGNS[name]), " "] : null);
export const kindWord = (kind) => KIND_WORDS[kind];
export const kindLetter = (kind) => KIND_LETTERS[kind];

/** The letter of a kind of object, in its colour. */
export function kindMark(kind) {
  const word = KIND_WORDS[kind];
  return element("span", { class: `mark ${kind}`, role: "img", "aria-label": word, title: word }, KIND_LETTERS[kind]);
}

/** The name that the set-up has for a word, or none, where the word led to a slot of the root CNode: names of slots are
    names of its slots, and the same number read in another CNode means another slot. Of several names nothing tells
    which one was meant. */
export function namesOfWord(view, word, slot) {
  const names = view.trace.names.get(String(word)) ?? [];
  const isInRoot = slot !== null && slot !== undefined && view.before.nodeAround(slot)?.base === 0;
  return isInRoot && names.length === 1 ? names : [];
}

/** The name of a word behind a space, where it has one. */
export const nameOfWord = (view, word, slot) =>
  namesOfWord(view, word, slot).map((name) => [" ", element("span", { class: "dim name" }, name)]);

/** All names of a thread, behind a space. */
export function namesOfThread(view, address) {
  const names = view.trace.names.get(String(address)) ?? [];
  const shown = names.slice(0, MOST_NAMES).join(", ") + (names.length > MOST_NAMES ? ", .." : "");
  return shown && [" ", dim(shown)];
}

/** A thread with its names. */
export const threadName = (view, address) => [code(String(address)), namesOfThread(view, address)];

/** An object: the mark of its kind, its address, and a thread's names. By `data-object` it is found wherever it is. */
export function objectName(view, capability) {
  const { kind, base, object } = capability;
  const name = element("span", { "data-object": object }, kindMark(kind), code(String(base)));
  return [name, kind === "tcb" ? namesOfThread(view, base) : null];
}

/** A slot by its place, with its address as the tooltip: in a CNode that is live or ended at this step, or else as the
    root slot of a thread, `2048.cspace`; `no slot` where there is none. */
export function slotName(view, address) {
  if (address === null || address === undefined) return dim("no slot");
  const name = view.after.nameOf(address) ?? view.before.nameOf(address) ?? `${address}.cspace`;
  return element("b", { class: "code", title: `slot at address ${address}` }, name);
}

/** The name of a slot of the root CNode behind a space, where the set-up has one for its number. */
export function nameOfSlot(view, address) {
  const node = view.before.nodeAround(address) ?? view.after.nodeAround(address);
  return node?.base === 0 ? nameOfWord(view, address >> view.trace.machine.slotBits, address) : null;
}

/** The ring around a slot, as a class behind a space: that of one which the call names, or of one on the way of a word to it. */
export const ringOf = (view, address) => (view.isNamed(address) ? " named" : view.isPassed(address) ? " on-way" : "");

const namesByPlaces = new WeakMap();

/** The names of the objects in a state: of each those of the slots of the root CNode that hold a capability of it which was derived
    from no other one of it. */
function namesOfObjects(view) {
  const { after, trace: { machine, names } } = view;
  if (!namesByPlaces.has(after)) {
    const found = new Map();
    const { slot: lines } = after.state;
    for (const { address, under, capability: { object } } of after.slots) {
      if (lines.get(under)?.capability.object === object || after.nodeAround(address)?.base !== 0) continue;
      const told = names.get(String(address >> machine.slotBits)) ?? [];
      found.set(object, [...found.get(object) ?? [], ...told]);
    }
    namesByPlaces.set(after, found);
  }
  return namesByPlaces.get(after);
}

/** The name of an object behind a space, where it has just one; a thread has its own. */
export function nameOfObject(view, { kind, object }) {
  const names = kind === "tcb" ? [] : namesOfObjects(view).get(object) ?? [];
  return names.length === 1 ? [" ", element("span", { class: "dim name" }, names[0])] : null;
}

/** What is said of a capability behind its object: a CNode's slots are left out in a short text, and its guard where
    it is the usual one. */
function detailsOf(capability, machine, short) {
  const { kind, size, free, badge, rights, slots, radix, guard, guardSize } = capability;
  if (kind === "untyped") return `${size} B, used ${free}`;
  if (kind === "endpoint") return badge === "0" ? rights : `badge ${badge} ${rights}`;
  if (kind === "tcb") return "";
  // A guard of all bits above the radix makes a CNode of one level; it is the usual one, and is not told.
  const guarded = guardSize > 0 && guardSize + radix !== machine.wordBits || guard !== "0";
  return [short ? "" : `${slots} slots`, guarded ? `guard ${guardInWords(guard, guardSize)}` : ""].filter(Boolean).join(" ");
}

/** All that tells a capability from others of its object. */
export function wholeDetailsOf(capability, machine) {
  const { kind, slots, guard, guardSize } = capability;
  if (kind === "tcb") return "thread";
  if (kind === "cnode") return `${slots} slots${guardSize > 0 ? ` guard ${guardInWords(guard, guardSize)}` : ""}`;
  return detailsOf(capability, machine, false);
}

/** A capability: its object, then its badge and rights, its guard, or how much is used. */
export function capabilityName(view, capability, short = false) {
  const details = detailsOf(capability, view.trace.machine, short);
  return [objectName(view, capability), details && [" ", element("span", { class: "dim code" }, details)]];
}

/** What waits or was received: a badge and a message. */
export function messageName({ badge, message }) {
  const [, label, words] = /^label (\d+) words ?(.*)$/.exec(message);
  return `badge ${badge} · label ${label}${words ? ` · words ${words}` : ""}`;
}
