// What the page itself writes of each call: the places of the slots that it names or changes, and names. The list of
// calls shows some of it, and the find box looks through all of it.
import { KINDS_BY_NUMBER, kindWord, namesOfWord } from "./names.mjs";
import { Places } from "./places.mjs";
import { Run } from "./state.mjs";
import { meaningOf } from "./refusals.mjs";
import { namedSlots } from "./way.mjs";

const isOfNode = ({ line }) => line.capability?.kind === "cnode";
const isSlot = (address) => address !== null && address !== undefined;

/** A step with the slots that it names, the threads whose capabilities these held, and the CNodes before it and behind
    it. */
class Told {
  constructor(trace, step, named, held, before, after) {
    Object.assign(this, { trace, step, named, held, before, after });
  }

  /** How a slot is called. */
  place(address) {
    return this.after.nameOf(address) ?? this.before.nameOf(address) ?? `${address}.cspace`;
  }

  /** An index as the call has it where it leads to a slot of the root CNode or to none, and else the slot's place. */
  index(word, address) {
    return isSlot(address) && this.before.nodeAround(address)?.base !== 0 ? this.place(address) : word;
  }

  /** The same by its name, where it has one. */
  name(word, address) {
    return namesOfWord(this, word, address)[0] ?? this.index(word, address);
  }

  /** A call's words in short, by numbers or by names. */
  gist(isNamed) {
    const { words } = this.step;
    const { invoked, target, source, filled } = this.named;
    const write = (word, address) => (isNamed ? this.name(word, address) : this.index(word, address));
    const to = write(words.index, target);
    if (words.src_index !== undefined) return `${write(words.src_index, source)} → ${to}`;
    if (words.count !== undefined) {
      const kind = KINDS_BY_NUMBER[words.kind];
      const into = filled?.base ? ` → ${filled.base}[${words.offset}]` : "";
      return `${words.count} × ${kind ? kindWord(kind) : `kind ${words.kind}`}${into}`;
    }
    return words.index === undefined ? `by ${(isNamed && namesOfWord(this, words.cap, invoked)[0]) || words.cap}` : to;
  }

  /** The slots that the call names or changes, and those that these are derived from. */
  slots() {
    const { invoked, root, source, target } = this.named;
    const changed = this.step.changes.filter(({ line }) => line.kind === "slot");
    return [invoked, root, source, target, ...changed.flatMap(({ line }) => [line.address, line.under])].filter(isSlot);
  }

  /** The threads that the call is made by, names or changes. */
  threads() {
    const ofLine = ({ kind, address, capability, queue }) => (kind === "thread" || kind === "inbox" ? [address]
      : capability?.kind === "tcb" ? [capability.base] : queue ?? []);
    return [this.step.thread, ...this.held, ...this.step.changes.flatMap(({ line }) => ofLine(line))];
  }

  /** The names of the words that led to slots of the root CNode. */
  names() {
    const { words } = this.step;
    const { invoked, source, target } = this.named;
    return [[words.cap, invoked], [words.index, target], [words.src_index, source]]
      .flatMap(([word, slot]) => namesOfWord(this, word, slot));
  }

  texts(gist) {
    const names = this.threads().flatMap((thread) => this.trace.names.get(String(thread)) ?? []);
    const places = this.slots().map((address) => this.place(address));
    return [...new Set([gist, meaningOf(this.step.reply), ...places, ...names, ...this.names()])];
  }
}

/** The threads whose capabilities stand in the slots that a step names. */
function threadsHeld(state, { invoked, root, source, target }) {
  const held = [invoked, root, source, target].map((address) => state.slot.get(address)?.capability);
  return held.filter((capability) => capability?.kind === "tcb").map(({ base }) => base);
}

/** For each step of a trace, its words in short by numbers (`gist`) and by names (`named`), and the texts that the page writes of it
    (`texts`). */
export function wordsOfSteps(trace) {
  const run = new Run(trace.steps);
  let after = new Places(run.state, trace.machine);
  return trace.steps.map((step, number) => {
    const named = namedSlots(run.state, step);
    const held = threadsHeld(run.state, named);
    const before = after;
    run.go(number);
    // Where no capability of a CNode came or went, the CNodes are the same.
    if (step.changes.some(isOfNode)) after = new Places(run.state, trace.machine);
    const told = new Told(trace, step, named, held, before, after);
    const [gist, byName] = [false, true].map((isNamed) => (number === 0 ? "" : told.gist(isNamed)));
    return { gist, named: byName, texts: told.texts(gist) };
  });
}
