// The question how an index is read: its bits are clicked apart where the guard of a CNode ends, or the number of a slot, and where the
// lookup ends. What is right the trace tells, as it does the boxes of bits in the steps.
import { button, dim, element } from "../../page/source/element.mjs";
import { drawBoxes } from "../../page/source/ways.mjs";
import { readTrace } from "../../page/source/trace.mjs";

/** Of a longer index nothing is asked. */
const MOST_BITS = 16;
/** Indices are asked for: first the one of the slot to fill. */
const ASKED = [["index", "depth"], ["src_index", "src_depth"]];

/** Behind which bits a part of the way ends, but for the last one. */
function cutsOf(parts) {
  const pieces = parts.flatMap(({ over = "", guard = "", slot, unread = "" }) => [over, guard, slot?.bits ?? "", unread]).filter(Boolean);
  const ends = pieces.map((_, at) => pieces.slice(0, at + 1).join("").length);
  return ends.slice(0, -1);
}

/** What is asked of one call, `{ name, bits, parts, cuts }`, or undefined. */
function askedOf({ words, ways }) {
  const found = ASKED.find(([name, depth]) => Number(words[depth]) <= MOST_BITS && ways.some((way) => way.name === name));
  if (!found) return undefined;
  const [name, depth] = found;
  const { bits, parts } = ways.find((way) => way.name === name);
  return { name, bits, parts, cuts: cutsOf(parts) };
}

/** What is asked of the indices of a trace's calls, by the numbers of the calls. */
export function indicesOf(text) {
  return new Map(readTrace(text).steps.slice(1).map((step) => [step.number, askedOf(step)]));
}

const isSame = (one, other) => one.join() === other.join();

export class Cutting {
  /** `asked` is what is asked of the call (askedOf); `changed` is told of each change. */
  constructor(number, asked, changed) {
    Object.assign(this, { ...asked, number, changed, isShown: false, isMarked: false });
    this.gaps = [...this.bits].slice(1).map((_, at) => button("", () => this.press(at), { class: "cut", "aria-pressed": "false",
      "aria-label": `cut behind bit ${at + 1}`, tabindex: at === 0 ? "0" : "-1" }));
    this.row = element("div", { class: "cutting-bits", role: "group", "aria-label": `Call ${number}: where does each part of ${this.name} ${this.bits} end?` },
      [...this.bits].map((bit, at) => [element("span", { class: "bit" }, bit), this.gaps[at] ?? null]));
    this.row.addEventListener("keydown", (event) => this.step(event));
    this.outcome = element("span", { class: "cut-outcome" });
    this.element = element("div", { class: "cutting" }, dim(this.name), this.row, this.outcome);
  }

  /** Behind which bits it is cut. */
  get value() {
    return this.gaps.map((gap, at) => (gap.getAttribute("aria-pressed") === "true" ? at + 1 : 0)).filter(Boolean);
  }

  set value(cuts) {
    this.gaps.forEach((gap, at) => gap.setAttribute("aria-pressed", String(cuts.includes(at + 1))));
  }

  get isRight() {
    return isSame(this.value, this.cuts);
  }

  /** Whether it is marked as wrong, and can be changed. */
  get isWrong() {
    return this.isMarked && !this.isRight && !this.isShown;
  }

  /** Cuts the bits at a gap, or joins them again. */
  press(at) {
    const gap = this.gaps[at];
    gap.setAttribute("aria-pressed", String(gap.getAttribute("aria-pressed") !== "true"));
    this.unmark();
    this.focusAt(at);
    this.changed();
  }

  /** The arrow keys go from gap to gap: the bits are one stop of the Tab key. */
  step(event) {
    const at = this.gaps.indexOf(event.target) + ({ ArrowLeft: -1, ArrowRight: 1 }[event.key] ?? NaN);
    if (!this.gaps[at]) return;
    event.preventDefault();
    this.focusAt(at);
  }

  focus() {
    this.gaps.find(({ tabIndex }) => tabIndex === 0)?.focus();
  }

  focusAt(at) {
    this.gaps.forEach((gap, place) => {
      gap.tabIndex = place === at ? 0 : -1;
    });
    this.gaps[at].focus();
  }

  unmark() {
    this.isMarked = false;
    this.outcome.replaceChildren();
  }

  /** Says whether the bits are cut as they are read; what is right cannot be changed any more. */
  mark() {
    const { isRight } = this;
    this.isMarked = true;
    for (const gap of this.gaps) gap.disabled = isRight;
    this.outcome.replaceChildren(element("span", { class: isRight ? "tag met" : "tag missed" }, isRight ? "✓ read so" : "✗ not read so"));
  }

  /** Shows how the bits were cut, and how they are read. */
  show() {
    this.mark();
    this.isShown = true;
    const said = [...this.bits].map((bit, at) => (this.value.includes(at + 1) ? `${bit} ` : bit)).join("");
    this.row.replaceWith(element("span", {}, dim("you: "), element("b", { class: "code" }, said)));
    this.element.append(element("p", { class: "lookup", role: "group", "aria-label": `How ${this.name} ${this.bits} is read` }, drawBoxes(this.parts)));
  }
}
