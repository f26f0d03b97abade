// The editor: CodeMirror with its mode for TOML, and a margin for what the program says of each call.
import { element } from "../../page/source/element.mjs";

const MARGIN = "margin";
/** Lines that are brought into sight stand at least so many pixels from the edge. */
const POINTED_FROM_EDGE = 60;

/** An editor in an element, by the name that is heard of it; `changed` is told of each change that the reader makes, `moved` of each line that the reader puts
    the cursor into, and `asked` of a line whose mark the reader asks for, and whether by a click on the mark. */
export class Editor {
  constructor(parent, name, { changed, moved, asked }) {
    this.mirror = CodeMirror(parent, {
      mode: "toml", lineNumbers: true, gutters: [MARGIN, "CodeMirror-linenumbers"], inputStyle: "contenteditable",
      screenReaderLabel: name, lineWrapping: true, tabSize: 2,
      // Tab leaves the editor, as it leaves every other part of the page.
      extraKeys: { Tab: false, "Shift-Tab": false, Esc: () => this.leave(), F2: () => asked(this.mirror.getCursor().line, false) },
    });
    this.faulty = [];
    this.noted = [];
    this.pointed = [];
    this.told = new Map();
    // A screen reader is told that this is a field of many lines.
    const field = this.mirror.getInputField();
    field.setAttribute("role", "textbox");
    field.setAttribute("aria-multiline", "true");
    this.mirror.on("changes", () => {
      this.clear();
      changed();
    });
    // A finger is shown no title.
    this.mirror.on("gutterClick", (mirror, line) => {
      if (this.told.has(line)) asked(line, true);
    });
    this.mirror.on("cursorActivity", () => {
      if (this.mirror.hasFocus()) moved(this.mirror.getCursor().line);
    });
  }

  /** Colours some lines, those of one call, and brings them into sight. */
  point(first, last) {
    this.unpoint();
    const lines = Array.from({ length: last + 1 - first }, (_, at) => first + at);
    this.pointed = lines.map((line) => this.mirror.addLineClass(line, "background", "pointed"));
    const range = { from: { line: first, ch: 0 }, to: { line: last, ch: 0 } };
    if (!this.mirror.hasFocus()) this.mirror.scrollIntoView(range, POINTED_FROM_EDGE);
  }

  /** Takes the colour of those lines away. */
  unpoint() {
    this.pointed.forEach((line) => this.mirror.removeLineClass(line, "background", "pointed"));
    this.pointed = [];
  }

  get text() {
    return this.mirror.getValue();
  }

  set text(text) {
    this.mirror.setValue(text);
    this.mirror.clearHistory();
  }

  get lines() {
    return this.mirror.lineCount();
  }

  /** Takes all marks away. */
  clear() {
    this.mirror.clearGutter(MARGIN);
    this.told.clear();
    this.faulty.forEach((line) => this.mirror.removeLineClass(line, "background", "faulty"));
    this.noted.forEach((line) => this.mirror.removeLineClass(line, "background", "noted"));
    this.faulty = [];
    this.noted = [];
  }

  /** Puts marks into the margin. */
  markAll(marks) {
    this.mirror.operation(() => marks.forEach((mark) => this.mark(mark)));
  }

  /** Puts a sign into the margin of a line; the words are its title. */
  mark({ line, look, shown, words }) {
    if (line >= this.lines) return;
    this.told.set(line, words);
    const made = element("span", { class: `mark-${look}`, title: words, role: "img", "aria-label": words }, shown);
    this.mirror.setGutterMarker(line, MARGIN, made);
  }

  /** Marks a line as one at fault. */
  fault(line, words) {
    const at = Math.min(line, this.lines - 1);
    this.faulty.push(this.mirror.addLineClass(at, "background", "faulty"));
    this.mark({ line: at, look: "missed", shown: "✗", words });
  }

  /** Marks a line as one that a note is about. */
  note(line, words) {
    const at = Math.min(line, this.lines - 1);
    this.noted.push(this.mirror.addLineClass(at, "background", "noted"));
    this.mark({ line: at, look: "noted", shown: "i", words });
  }

  /** Marks the lines that something is told of, a fault or a note, each once; the words of the mark that a line has stay. */
  tell(told) {
    for (const line of new Set(told.map((it) => it.line))) {
      const here = told.filter((it) => it.line === line);
      const words = [this.told.get(line), ...here.map((it) => it.words)].filter(Boolean).join("\n");
      if (here.every(({ isNote }) => isNote)) this.note(line, words);
      else this.fault(line, words);
    }
  }

  /** Brings a line into sight, and puts the cursor there. */
  go(line) {
    this.mirror.setCursor(line, 0);
    this.mirror.scrollIntoView({ line, ch: 0 }, 80);
    this.mirror.focus();
  }

  leave() {
    this.mirror.getInputField().blur();
  }

  /** Has the editor measure itself anew, after its place has changed. */
  refresh() {
    this.mirror.refresh();
  }
}
