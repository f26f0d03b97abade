// "What if": calls that are run behind some of the set-up's, while the set-up stays as it is. They are kept as its own, or taken back.
import { STOPPED } from "./program.mjs";
import { lastLineOf, placesOf } from "./places.mjs";
import { traceBefore } from "./trace_text.mjs";

const asTable = (pairs) => ["[[call]]", ...pairs.map(([key, value]) => `${key} = ${value}`)];
const asEntry = (pairs, indent) => `${indent}{ ${pairs.map(([key, value]) => `${key} = ${value}`).join(", ")} },`;
const indentOf = (line) => /^\s*/u.exec(line)[0];
const isComment = (line) => /^\s*#/u.test(line);

/** Lines with tables of calls behind the first few calls. */
function withTables(lines, places, at, calls) {
  if (at > 0) return lines.toSpliced(lastLineOf(places[at - 1]) + 1, 0, ...calls.flatMap((pairs) => ["", ...asTable(pairs)]));
  let first = places[0]?.line ?? lines.length;
  while (first > 0 && isComment(lines[first - 1])) first -= 1;
  return lines.toSpliced(first, 0, ...calls.flatMap((pairs) => [...asTable(pairs), ""]));
}

/** Lines with entries of the list of calls behind the first few, or null where these do not stand on lines of their own. */
function withEntries(lines, places, at, calls) {
  const [before, next] = [places[at - 1], places[at]];
  const line = before ? lastLineOf(before) : next.line - 1;
  const isAlone = before ? next?.line !== line && /\}\s*,?\s*(?:#.*)?$/u.test(lines[line]) : /^\s*\{/u.test(lines[next.line]);
  if (!isAlone) return null;
  const known = before ? lines.with(line, lines[line].replace(/\}\s*(#.*)?$/u, "}, $1").trimEnd()) : lines;
  return known.toSpliced(line + 1, 0, ...calls.map((pairs) => asEntry(pairs, indentOf(lines[(before ?? next).line]))));
}

/** A set-up with calls behind its first few, or null where there is no room for them. */
export function withCalls(text, at, calls) {
  const lines = text.split("\n");
  const places = placesOf(text).call;
  const isList = places.length > 0 ? !/^\s*\[\[/u.test(lines[places[0].line]) : /^\s*call\s*=/mu.test(text);
  const found = isList ? places.length > 0 && withEntries(lines, places, at, calls) : withTables(lines, places, at, calls);
  return found ? found.join("\n") : null;
}

export class Branch {
  /** `steps` show the run of the set-up that `told` gives, as `{ text, title }`, and `trace` gives what the program answers to another text.
      What is kept is told to `keep`, with the number of its last call; where there is none, nothing can be kept. */
  constructor({ steps, told, trace, keep }) {
    Object.assign(this, { steps, told, trace, keepText: keep, at: 0, calls: [] });
  }

  get isOpen() {
    return this.calls.length > 0;
  }

  /** Runs one call more behind the call that is shown, and shows what it does. */
  async ask(pairs, shown) {
    const at = this.isOpen ? this.at : shown;
    await this.run(at, [...this.calls, pairs]);
  }

  /** Runs calls behind the first few of the set-up, and shows the last of them. */
  async run(at, calls) {
    const { steps } = this;
    const { text: before, title } = this.told();
    const text = withCalls(before, at, calls);
    if (text === null) {
      steps.tell({ fault: "Here a call can be added only where each stands on lines of its own." });
      return;
    }
    const answer = await this.trace(text);
    if (answer === STOPPED) return;
    const [output, errors] = [answer.output, answer.errors].map((it) => new TextDecoder().decode(it));
    if (answer.status !== 0 && answer.status !== 1) {
      steps.tell({ fault: errors.split("\n")[0] || output });
      return;
    }
    Object.assign(this, { at, calls });
    steps.tell({ trace: traceBefore(output, at + calls.length + 1), name: title, number: at + calls.length, branch: at, canAsk: true,
      canKeep: this.keepText !== undefined, own: steps.told.trace });
  }

  /** Does what is asked for in the steps: one call more, or what is to come of those that were. */
  do({ asked, pairs, number }) {
    if (asked === "keep") this.keep();
    else if (asked === "take back") this.takeBack();
    else this.ask(pairs, number);
  }

  /** The call that is shown is another one: before the branch it is left. */
  shown(number) {
    if (this.isOpen && number <= this.at) this.leave(number);
  }

  /** Shows the set-up's own run again. */
  leave(number = this.at) {
    this.close();
    this.steps.showAgain(number);
  }

  close() {
    this.calls = [];
  }

  /** Takes the last of the calls back. */
  takeBack() {
    const calls = this.calls.slice(0, -1);
    if (calls.length > 0) return this.run(this.at, calls);
    this.leave();
    return null;
  }

  /** Makes the calls those of the set-up. */
  keep() {
    const { at, calls } = this;
    if (!this.isOpen || !this.keepText) return;
    const text = withCalls(this.told().text, at, calls);
    this.close();
    this.keepText(text, at + calls.length);
  }
}
