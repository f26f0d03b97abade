// Where the parts of a set-up stand in its text: the lines of its calls, its regions of untyped memory and its keys. It
// follows the brackets and texts of TOML and knows no more of it, so it serves a text that the program refuses as well.

const TOKEN = new RegExp([
  /^[ \t]*\[\[?[^[\]\n]*\]\]?/, /"""(?:\\[^]|(?!""")[^])*(?:"""|$)/, /'''(?:(?!''')[^])*(?:'''|$)/,
  /"(?:\\.|[^"\\\n])*"?/, /'[^'\n]*'?/, /#[^\n]*/, /\n/, /[[\]{}=,]/, /[^\s[\]{}=,"'#]+/,
].map(({ source }) => source).join("|"), "gm");
const HEAD = /^\s*\[\[?([^[\]]*)\]/;
const LISTED = ["call", "untyped"];
const DOTTED = /^names\.([\w-]+)$/;

const bare = (word) => word.replace(/^(["'])(.*)\1$/, "$2");

/** Where an entry begins, where each of its keys stands, and each text that is the value of a key; lines count from 0. */
const entryAt = (line) => ({ line, keys: new Map(), texts: new Map() });

/** Reads a set-up token by token, and keeps where things stand. */
class Reader {
  constructor() {
    this.found = { top: entryAt(0), names: entryAt(0), call: [], untyped: [] };
    Object.assign(this, { table: this.found.top, inline: null, depth: 0, word: "", list: "", valued: null });
  }

  begin(list, line) {
    const entry = entryAt(line);
    this.found[list].push(entry);
    return entry;
  }

  head(name, line) {
    if (this.depth > 0) return;
    if (LISTED.includes(name)) this.table = this.begin(name, line);
    else this.table = name === "names" ? this.found.names : entryAt(line);
    if (!this.found.top.keys.has(name)) this.found.top.keys.set(name, line);
  }

  /** In `call = [ { .. }, { .. } ]` each brace of the second depth begins a call. */
  open(token, line) {
    this.depth += 1;
    if (token === "{" && this.depth === 2 && this.list) this.inline = this.begin(this.list, line);
  }

  close() {
    this.depth = Math.max(0, this.depth - 1);
    if (this.depth < 2) this.inline = null;
    if (this.depth === 0) this.list = "";
  }

  key(line) {
    this.valued = { entry: this.depth === 2 ? this.inline : this.depth === 0 ? this.table : null, key: this.word };
    if (this.depth === 2) this.inline?.keys.set(this.word, line);
    if (this.depth > 0) return;
    const name = this.table === this.found.top ? DOTTED.exec(this.word)?.[1] : undefined;
    if (name === undefined) this.table.keys.set(this.word, line);
    else this.dotted(name, line);
    this.list = this.table === this.found.top && LISTED.includes(this.word) ? this.word : "";
  }

  /** A name by a key `names.NAME`. */
  dotted(name, line) {
    const { top, names } = this.found;
    names.keys.set(name, line);
    if (!top.keys.has("names")) top.keys.set("names", line);
  }

  /** Keeps where a text stands that is the value of a key: its first letter, the one behind its last, and its content. */
  value(token, at) {
    if (/^["']/u.test(token)) this.valued?.entry?.texts.set(this.valued.key, { start: at, end: at + token.length, text: bare(token) });
    this.valued = null;
  }

  take(token, line, at) {
    const head = HEAD.exec(token);
    if (head) this.head(head[1].trim(), line);
    else if (token === "[" || token === "{") this.open(token, line);
    else if (token === "]" || token === "}") this.close();
    else if (token === "=") this.key(line);
    else if (!token.startsWith("#")) {
      this.value(token, at);
      this.word = bare(token);
    }
  }
}

/** Where the parts of a set-up stand: `{ top, names, call, untyped }`, each entry with its `line`, the lines of its `keys` and
    the places of their `texts`; of the calls as many as are asked for. */
export function placesOf(text, calls = Infinity) {
  const reader = new Reader();
  let line = 0;
  for (const { 0: token, index } of text.matchAll(TOKEN)) {
    if (reader.found.call.length > calls) break;
    if (token !== "\n") reader.take(token, line, index);
    line += token.split("\n").length - 1;
  }
  return reader.found;
}

const NAMES = [/^\[names\]((?:\s*\n(?!\s*\[).*)*)/mu, /^names\s*=\s*\{([^}]*)\}/mu];
const DOTTED_LINE = /^names\.([\w-]+\s*=.*)$/gmu;
const NAMED = /([\w-]+)\s*=\s*"?(0x[0-9a-f]+|\d+)"?/giu;

/** How many bits a word has in the profile of a set-up. */
export const wordBitsOf = (text) => (/^profile\s*=\s*["']narrow["']/mu.test(text) ? 32 : 64);

/** The names of a set-up by their numbers, of each number that has just one. */
export function namesOf(text) {
  const bareText = text.replace(/#.*$/gmu, "");
  const dotted = [...bareText.matchAll(DOTTED_LINE)].map(([, pair]) => pair).join("\n");
  const table = NAMES.map((pattern) => pattern.exec(bareText)?.[1]).find(Boolean) ?? dotted;
  const pairs = [...table.matchAll(NAMED)].map(([, name, value]) => [String(BigInt(value)), name]);
  return new Map(pairs.filter(([value]) => pairs.filter(([other]) => other === value).length === 1));
}

/** The last line of an entry. */
export const lastLineOf = ({ line, keys }) => Math.max(line, ...keys.values());

/** The number of the call that a line belongs to, or 0 where it belongs to none. */
export function callAt(text, line) {
  return 1 + placesOf(text).call.findIndex((entry) => entry.line <= line && line <= lastLineOf(entry));
}

const FAULT = /^set-up refused \d+ at (?:(text)|top key (\S+)|(call|untyped) (\d+) (?:key )?(\S+)|layout (\S+))$/m;
/** A message of standard error that has a place: the name, the line and the column stand before it. */
const PLACED = "(?! ).*?:(\\d+):\\d+: (?:error|warning): (.*)";
const LINE = new RegExp(`^${PLACED}$`, "mu");
const MESSAGE = new RegExp(`^(?:sel4sim: (.*)|${PLACED})$`, "gmu");
/** The key or the name that standard error tells of. */
const TOLD = /value of (\S+) is|key "([^"]+)"/;
/** The key that gives room to what does not fit. */
const ROOM = { slots: "root_radix", outside: "memory_bits" };

/** What standard error says, line by line, each with the line of the set-up that it shows: from 0 on, and -1 for none. */
export function wordsTold(errors) {
  return [...errors.matchAll(MESSAGE)].map(([, plain, line, placed]) => ({ words: plain ?? placed, line: Number(line ?? 0) - 1 }));
}

/** The line at which a refused set-up has its first fault, by what the program wrote, or -1 where nothing was refused. */
export function lineOfFault(text, output, errors) {
  const fault = FAULT.exec(output);
  if (!fault) return -1;
  const [, isText, top, list, number, key, layout] = fault;
  if (isText) return Number(LINE.exec(errors)?.[1] ?? 1) - 1;
  const places = placesOf(text);
  const told = TOLD.exec(errors)?.slice(1).find(Boolean);
  if (list) {
    const entry = places[list][Number(number) - 1];
    return entry?.keys.get(key) ?? entry?.keys.get(told) ?? entry?.line ?? 0;
  }
  const name = top === "names" ? places.names.keys.get(told) : undefined;
  return name ?? places.top.keys.get(top ?? ROOM[layout]) ?? places.top.keys.get(told) ?? 0;
}
