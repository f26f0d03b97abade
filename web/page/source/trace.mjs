// Reads a trace; docs/trace.md has its grammar. Whatever does not keep to the grammar is refused with the number of its
// line. So all that the rest of the page draws has the right form and lies in bounds, whoever wrote the file.

import { WAY, readWay } from "./way.mjs";

const NUMBER = "(?:0|[1-9][0-9]{0,19})";
const MESSAGE = `label ${NUMBER} words(?: ${NUMBER}){0,4}`;
const DELIVERED = `delivered ${NUMBER} from ${NUMBER} to ${NUMBER} badge ${NUMBER} ${MESSAGE}`;
const REPLY = `done|waiting|dropped|empty|refused ${NUMBER}(?:/${NUMBER})?|${DELIVERED}`;

const pattern = (text) => new RegExp(`^${text}$`);
const HEAD = pattern(`trace 2 (wide|narrow) memory_bits (${NUMBER}) calls (${NUMBER})`);
const NAME = pattern(`name ([a-z0-9_]{1,40}) (${NUMBER})`);
const CALL = pattern(`(${NUMBER}) (${NUMBER}) ([a-z_]+): (${REPLY})(?: \\[(met|not met: ([ -~]{1,120}))\\])?`);
const REASON = pattern("  ([a-z][ -~]{1,1000})");
const CHANGE = pattern("  ([-+]) ((thread|inbox|endpoint|slot|selfheld|sibling) .*)");
const EXPECTED = pattern(`expected (${NUMBER}) of (${NUMBER})`);

const THREAD = pattern(`thread (${NUMBER}) (?:(ready|inactive)|(receiving) (${NUMBER})|`
  + `(sending) (${NUMBER}) badge (${NUMBER}) (${MESSAGE}))`);
const INBOX = pattern(`inbox (${NUMBER}) badge (${NUMBER}) (${MESSAGE})`);
const ENDPOINT = pattern(`endpoint (${NUMBER}) (?:idle|(sending|receiving)((?: ${NUMBER})+))`);
const SLOT = pattern(`slot (${NUMBER}) (untyped|endpoint|cnode|tcb) (${NUMBER})(.*?)`
  + `(?: under (${NUMBER}))?( original)?`);
const SELF_HELD = pattern(`selfheld (${NUMBER})`);
const SIBLING = pattern(`sibling (${NUMBER}) after (${NUMBER})`);
const DETAILS = {
  untyped: pattern(` bits (${NUMBER}) free (${NUMBER})`),
  endpoint: pattern(` badge (${NUMBER}) rights ([w-][r-][g-][p-])`),
  cnode: pattern(` radix (${NUMBER}) guard (${NUMBER}) size (${NUMBER})`),
  tcb: pattern(""),
};

/** The words of each operation, in the order in which a trace has them. */
const SOURCE = "cap index depth src_root src_index src_depth";
const KEYS = {
  retype: "cap kind size_bits root index depth offset count", copy: `${SOURCE} rights`, mint: `${SOURCE} rights word`,
  move: SOURCE, mutate: `${SOURCE} word`, delete: "cap index depth", revoke: "cap index depth",
  cancel_badged: "cap index depth", send: "cap label words", nbsend: "cap label words", recv: "cap", nbrecv: "cap",
  set_space: "cap root word", suspend: "cap", resume: "cap",
};

const ENDPOINT_BYTES = 16;
const MOST_CALLS = 65536;
const MOST_QUOTED = 80;
const MOST_REASONS = 4;

/** What is wrong with a text that should be a trace, and in which line. */
export class TraceFault extends Error {
  constructor(lineNumber, message) {
    super(`line ${lineNumber}: ${message}`);
  }
}

/** The sizes of a machine: bits of a word, of a slot's size and of a thread's size, and the bytes of its memory. */
function machineOf(profile, memoryBits) {
  const [wordBits, slotBits, threadBits] = profile === "wide" ? [64, 5, 11] : [32, 4, 10];
  return { profile, wordBits, slotBits, threadBits, memory: 2 ** memoryBits };
}

/** The parts of a text that has to match. */
function partsOf(text, wanted) {
  const match = wanted.exec(text);
  if (!match) throw new Error(`no line of a trace: ${text.slice(0, MOST_QUOTED)}`);
  return match.slice(1);
}

/** An address in the machine's memory, as a number: all of these are small, whereas words of calls stay texts. */
function readAddress(text, machine) {
  const address = Number(text);
  if (address >= machine.memory) throw new Error(`${text} is no address in the memory`);
  return address;
}

function readBounded(text, least, most) {
  const number = Number(text);
  if (number < least || number > most) throw new Error(`${text} is not from ${least} to ${most}`);
  return number;
}

const CAPABILITY_READERS = {
  untyped([bits, free]) {
    const size = 2 ** readBounded(bits, 4, 20);
    return { size, bits: Number(bits), free: readBounded(free, 0, size) };
  },
  endpoint: ([badge, rights]) => ({ size: ENDPOINT_BYTES, badge, rights }),
  cnode([radix, guard, guardSize], machine) {
    const slots = 2 ** readBounded(radix, 1, 20);
    const bits = readBounded(guardSize, 0, machine.wordBits - Number(radix));
    return { size: slots << machine.slotBits, slots, radix: Number(radix), guard, guardSize: bits };
  },
  tcb: (_, machine) => ({ size: 2 ** machine.threadBits }),
};

/** A capability. Its `object` tells objects apart: two untyped regions may begin at one address. */
function readCapability(kind, baseText, detailText, machine) {
  const base = readAddress(baseText, machine);
  const details = partsOf(detailText, DETAILS[kind]);
  const capability = { kind, base, ...CAPABILITY_READERS[kind](details, machine) };
  if (base + capability.size > machine.memory) throw new Error(`the ${kind} ends outside of the memory`);
  return { ...capability, object: kind === "untyped" ? `untyped ${base}/${capability.bits}` : `${kind} ${base}` };
}

const LINE_READERS = {
  thread(text, machine) {
    const [address, still, receiving, source, sending, target, badge, message] = partsOf(text, THREAD);
    const endpoint = source ?? target;
    return {
      address: readAddress(address, machine), state: still ?? receiving ?? sending, badge, message,
      endpoint: endpoint === undefined ? null : readAddress(endpoint, machine),
    };
  },
  inbox(text, machine) {
    const [address, badge, message] = partsOf(text, INBOX);
    return { address: readAddress(address, machine), badge, message };
  },
  endpoint(text, machine) {
    const [address, state = "idle", queue = ""] = partsOf(text, ENDPOINT);
    const waiting = queue.split(" ").slice(1).map((thread) => readAddress(thread, machine));
    return { address: readAddress(address, machine), state, queue: waiting };
  },
  slot(text, machine) {
    const [address, kind, base, details, under, original] = partsOf(text, SLOT);
    return {
      address: readAddress(address, machine), capability: readCapability(kind, base, details, machine),
      under: under === undefined ? null : readAddress(under, machine), original: original !== undefined,
    };
  },
  selfheld: (text, machine) => ({ address: readAddress(partsOf(text, SELF_HELD)[0], machine) }),
  sibling(text, machine) {
    const [address, after] = partsOf(text, SIBLING);
    return { address: readAddress(address, machine), after: readAddress(after, machine) };
  },
};

/** A line of a state: its kind, its address, its text and what it says. */
function readLine(kind, text, machine) {
  return { kind, text, ...LINE_READERS[kind](text, machine) };
}

/** What the line below a call has to be: each key of the operation with a word, or `words` with up to four. */
function wordsPattern(keys) {
  const parts = keys.map((key) => (key === "words" ? ` words((?: ${NUMBER}){0,4})` : ` ${key} (${NUMBER})`));
  return pattern(`  with${parts.join("")}`);
}

/** The words of a call by their keys; the words of a message as one text. */
function readWords(operation, line) {
  const keys = KEYS[operation].split(" ");
  const match = wordsPattern(keys).exec(line);
  if (!match) throw new Error(`the words of a ${operation} are ${keys.join(", ")}`);
  return Object.fromEntries(keys.map((key, place) => [key, match[place + 1].trim()]));
}

/** Takes the lines of a text one after another. */
class Reader {
  constructor(text) {
    this.lines = text.split(/\r?\n/);
    if (this.lines.at(-1) === "") this.lines.pop();
    this.place = 0;
  }

  get line() {
    return this.lines[this.place];
  }

  /** Takes the next line if it matches: the match, or null. */
  take(wanted) {
    const match = this.place < this.lines.length ? wanted.exec(this.line) : null;
    if (match) this.place += 1;
    return match;
  }

  /** Makes a fault of an error, at the line taken last. */
  within(read) {
    try {
      return read();
    } catch (error) {
      throw new TraceFault(this.place, error.message);
    }
  }

  /** Refuses the next line. */
  refuse(message) {
    throw new TraceFault(this.place + 1, `${message}: ${(this.line ?? "the text ends").slice(0, MOST_QUOTED)}`);
  }
}

function readHead(reader) {
  const head = reader.take(HEAD);
  if (!head) reader.refuse("a trace begins with `trace 2 ..`, and this with");
  const [, profile, memoryBits, calls] = head;
  return reader.within(() => ({
    machine: machineOf(profile, readBounded(memoryBits, 12, 20)), calls: readBounded(calls, 0, MOST_CALLS),
  }));
}

/** The names of each word; one word can have several. */
function readNames(reader) {
  const names = new Map();
  for (let match = reader.take(NAME); match; match = reader.take(NAME)) {
    const [, name, word] = match;
    names.set(word, [...(names.get(word) ?? []), name]);
  }
  return names;
}

function readChanges(reader, machine) {
  const changes = [];
  for (let match = reader.take(CHANGE); match; match = reader.take(CHANGE)) {
    const [, sign, text, kind] = match;
    changes.push({ sign, line: reader.within(() => readLine(kind, text, machine)) });
  }
  return changes;
}

function readBoot(reader, machine) {
  const line = reader.line;
  if (!reader.take(pattern("0 boot"))) reader.refuse("neither a name nor `0 boot`");
  return { number: 0, line, with: "", thread: "", operation: "boot", reply: "", expectation: "", words: {}, ways: [], reasons: [],
    changes: readChanges(reader, machine) };
}

/** The ways of the words of a call: none where the trace was not asked for them, or where the call looks none up. */
function readWays(reader, words, machine) {
  const ways = [];
  for (let match = reader.take(WAY); match; match = reader.take(WAY)) {
    const [, name, word] = match;
    if (words[name] !== word || ways.some((way) => way.name === name)) reader.refuse("each way is of one word of its call");
    ways.push(reader.within(() => readWay(match, machine)));
  }
  return ways;
}

/** The lines that say why a call is refused: none where it is answered otherwise. */
function readReasons(reader, reply) {
  const reasons = [];
  if (!reply.startsWith("refused")) return reasons;
  for (let match = reader.take(REASON); match; match = reader.take(REASON)) reasons.push(match[1]);
  if (reasons.length === 0 || reasons.length > MOST_REASONS) reader.refuse("a refused call has one to four lines of its reason");
  return reasons;
}

function readCall(reader, match, machine) {
  const [line, number, thread, operation, reply, expectation = ""] = match;
  if (!Object.hasOwn(KEYS, operation)) throw new TraceFault(reader.place, `no operation: ${operation}`);
  const given = reader.take(/^  with .*$/);
  if (!given) reader.refuse("a call has its words in the line below it");
  const words = reader.within(() => readWords(operation, given[0]));
  return { number: Number(number), line, with: given[0], thread, operation, reply, expectation, words,
    ways: readWays(reader, words, machine), reasons: readReasons(reader, reply), changes: readChanges(reader, machine) };
}

function readSteps(reader, machine) {
  const steps = [readBoot(reader, machine)];
  for (let match = reader.take(CALL); match; match = reader.take(CALL)) {
    if (match[1] !== String(steps.length)) throw new TraceFault(reader.place, `call ${steps.length} should stand here`);
    steps.push(readCall(reader, match, machine));
  }
  return steps;
}

/** A trace: the machine, the names, the steps (boot first), and the line of expectations, which is null where the text
    was cut off before it. Throws a `TraceFault` for any other text. */
export function readTrace(text) {
  const reader = new Reader(text);
  const { machine, calls } = readHead(reader);
  const names = readNames(reader);
  const steps = readSteps(reader, machine);
  const expected = reader.take(EXPECTED);
  if (reader.place < reader.lines.length) reader.refuse("no line of a trace");
  const complete = expected !== null && steps.length === calls + 1;
  const counts = expected && { met: Number(expected[1]), of: Number(expected[2]) };
  return { machine, names, steps, complete, expected: counts };
}
