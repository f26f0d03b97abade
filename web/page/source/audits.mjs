// The audits that stand in the page, one behind each step: which slots the words of a thread lead to, which an index and a depth
// name besides, and who can send to whom.
import { wayOf } from "./channels.mjs";
import { writeWord } from "./lookup.mjs";

const HEAD = /^audit \d+ \S+ memory_bits \d+ calls \d+ after (\d+)$/u;
const THREAD = /^thread (\d+(?: @\S+)?) /u;
const SAME = /^ {2}as (\d+(?: @\S+)?)$/u;
const REACHED = /^ {2}reach (\d+) (\d+) slot (\d+) /u;
const HELD = /^ {2}hold (\d+) (\d+) index \d+ depth \d+ slot (\d+) /u;

/** What one thread names: the slot of each word, and those that are named from the slot of a word. */
class Row {
  constructor() {
    Object.assign(this, { slotOf: new Map(), words: new Map(), held: [] });
  }

  addWord(word, slot) {
    this.slotOf.set(word, Number(slot));
    this.words.set(Number(slot), writeWord(BigInt(word)));
  }

  addHeld(word, slot) {
    this.held.push({ from: this.slotOf.get(word), slot: Number(slot) });
  }
}

/** What each thread names in one state, and the ways between threads. A thread that names just what an earlier one does is told
    as that one: `spaces` has such threads, by the earlier one. */
class Audit {
  constructor() {
    Object.assign(this, { rows: new Map(), ways: [], spaces: new Map() });
  }

  addSame(thread, first) {
    this.rows.set(parseInt(thread, 10), this.of(parseInt(first, 10)));
    this.spaces.set(first, [...(this.spaces.get(first) ?? []), thread]);
  }

  /** What a thread names; nothing, where the audit does not speak of it. */
  of(thread) {
    if (!this.rows.has(thread)) this.rows.set(thread, new Row());
    return this.rows.get(thread);
  }
}

/** The audits in a text, by the number of the step that each is behind. Lines of another form say nothing. */
export function readAudits(text) {
  const audits = new Map();
  let audit = new Audit();
  let latest = "";
  for (const line of text.split("\n")) {
    const [head, thread, same, reached, held] = [HEAD, THREAD, SAME, REACHED, HELD].map((form) => form.exec(line));
    if (head) audits.set(Number(head[1]), (audit = new Audit()));
    else if (thread) latest = thread[1];
    else if (same) audit.addSame(latest, same[1]);
    else if (reached) audit.of(Number(reached[1])).addWord(reached[2], reached[3]);
    else if (held) audit.of(Number(held[1])).addHeld(held[2], held[3]);
    else audit.ways.push(...[wayOf(line)].filter(Boolean));
  }
  return audits;
}
