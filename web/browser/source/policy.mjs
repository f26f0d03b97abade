// The policy that the tab of this name holds the layout to: an editor of its own, with what the program says at its lines.
import { Editor } from "./editor.mjs";
import { drawLine, drawRows } from "./report.mjs";
import { drawOpeners } from "./opener.mjs";
import { button, element } from "../../page/source/element.mjs";

/** What a new policy begins with. */
const BEGINNING = `policy = 2
# Threads that are trusted to make no more calls, as a loader:
silent = []
# Names of threads, each a group by itself:
alone = []
# Who may send to whom, by which endpoint and badge:
# way = [{ from = "client", to = "server", by = "endpoint", badge = 1 }]
# Who may empty slots of whom, by a revoke:
# take = [{ from = "server", to = "client" }]
`;
const IS_POLICY = /^(?:[ \t]*(?:#.*)?\n)*[ \t]*policy[ \t]*=/u;
const BREACH = /^breach /u;
/** A breach by calls to come; the others say what is there already. */
const TO_COME = /^breach (?:way|badge|waiting|joined) /u;
/** A line below a breach says where in the layout it comes from, and by which calls. */
const IS_PLACE = /^ {2}\S/u;
const BY_CALL = /(?<= )(call \d+)(?= under |$)/u;
const PLACED = /^(.*):(\d+):\d+: (error|warning|note): (.*)$/gmu;

/** Whether a text is that of a policy: its first key says so. */
export const isPolicy = (text) => IS_POLICY.test(text);

/** What standard error says of the file of that name, each with its line, from 0 on, and whether it is a note. The words of a note
    have behind them those of the error that it stands below. */
export function toldOf(errors, name) {
  const told = [];
  let above = "";
  for (const [, file, line, kind, words] of errors.matchAll(PLACED)) {
    const isNote = kind === "note";
    if (!isNote) above = words;
    if (file === name) told.push({ line: Number(line) - 1, isNote, words: isNote && above ? `${words}; of: ${above}` : words });
  }
  return told;
}

/** The line of a breach, with a button that has calls looked for by which it happens. */
const drawBreach = (line, open) => element("div", { class: "line" }, line, drawOpeners([{ words: "by which calls?",
  title: "Look for calls by which this breach happens, and open them as a set-up", open }]));

/** A line that says where in the layout a breach comes from, with a way to each call that it names. */
const drawPlace = (line, go) => element("div", { class: "line" }, line.split(BY_CALL).map((part, at) => (at % 2 === 0 ? part
  : button(part, () => go(Number(part.split(" ")[1])), { class: "link step", title: `To ${part} in the set-up` }))));

/** Draws a text of `policy` into an element; `open` is told the number of a breach of which it is asked how it happens, and `go` the
    number of a call that is chosen. */
export function drawHeld(into, text, { open, go }) {
  const lines = text.split("\n").slice(0, -1);
  const numbers = new Map(lines.filter((line) => BREACH.test(line)).map((line, at) => [line, at + 1]));
  const told = element("div", { tabindex: "0", role: "region", "aria-label": "What the program wrote" });
  const draw = (line) => (TO_COME.test(line) ? drawBreach(line, () => open(numbers.get(line))) : IS_PLACE.test(line) ? drawPlace(line, go) : drawLine(line));
  drawRows(told, lines.map((line) => () => draw(line)));
  into.replaceChildren(told);
}

/** The editor of the policy; `changed` is told of each change that the reader makes. */
export class Policy {
  constructor(parent, changed) {
    this.changed = () => {};
    this.editor = new Editor(parent, "Policy", { changed: () => this.changed(), moved: () => {}, asked: () => {} });
    this.take("");
    this.changed = changed;
  }

  get text() {
    return this.editor.text;
  }

  /** Whether the policy is not as it was opened. */
  get isChanged() {
    return this.text !== this.asOpened;
  }

  /** Takes a policy, or the beginning of one. */
  take(text) {
    this.editor.text = text || BEGINNING;
    this.asOpened = this.editor.text;
  }

  /** Puts what standard error says of the policy into its margin. */
  mark(errors, name) {
    this.editor.clear();
    this.editor.tell(toldOf(errors, name));
  }
}
