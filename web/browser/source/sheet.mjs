// The sheet of an exercise: its task, a card for each call, and below them how far one is and what there is to do.
import { Card } from "./card.mjs";
import { button, counted, element } from "../../page/source/element.mjs";
import { link } from "./basics.mjs";
import { withTerms } from "./terms.mjs";

/** What an exercise is at: its answers are asked for, marked, or shown with their reasons. */
export const ASKED = "asked";
export const MARKED = "marked";
export const SHOWN = "shown";
/** What marks stands in a place of its own, and what gives answers away or takes them back comes last: who presses twice, by
    the mouse or by the key, presses nothing else. */
const BUTTONS = [
  ["mark", "mark my answers", "main"], ["check", "check this answer", "main"], ["next", "next exercise"], ["save", "save my answers"],
  ["restart", "begin anew"], ["leave", "the set-up itself"], ["reveal", "show the answers"],
];

/** The title, with what is asked, and the paragraphs of the task; the first place of each word of the kernel is explained. */
export function drawTask(title, asked, task) {
  const seen = new Set();
  return [element("h1", { tabindex: "-1" }, title, " ", element("small", {}, asked)),
    ...task.map((it) => element("p", { class: "task" }, withTerms(it, seen)))];
}

/** The cards of calls that are made already, folded away, or null where there is none. */
export function drawBefore(cards) {
  return cards.length === 0 ? null : element("details", { class: "before" },
    element("summary", {}, `${counted(cards.length, "call")} ${cards.length === 1 ? "is" : "are"} made already`),
    element("ol", { class: "cards" }, cards.map((card) => card.element)));
}

/** The way to the state, where it stands below the sheet. */
export const drawWay = (words, see) => element("p", { class: "way" }, link(words, see));

/** Drawn once where bits are asked for. */
const HOW_TO_CUT = "Click the bits of each index apart: where the guard of a CNode ends, where the number of a slot ends, and where the lookup ends. "
  + "With keys: left and right, and the space bar.";

/** How far one is, in words; where bits are asked for, how many of them are read right. */
function progressOf(view) {
  const { stage, bits } = view;
  return bits.of > 0 && stage !== ASKED ? `${progressOfAnswers(view)} Bits: ${bits.right} of ${bits.of} read right.` : progressOfAnswers(view);
}

function progressOfAnswers({ stage, right, given, of, atFirst, missing, wrong, current, checked }) {
  if (current) return `${right} of ${checked} right; call ${current} is asked, ${of - checked} to go.`;
  if (stage === SHOWN) return `${right} of ${of} right, ${atFirst} at the first try. Each answer and its reason stand below the call.`;
  if (wrong.length > 0) return `${right} of ${of} right${given > 0 ? `, ${given} shown` : ""}. Change what is marked ✗: ${wrong.join(", ")}.`;
  return missing.length > 0 ? `${of - missing.length} of ${of} answered; open: ${missing.join(", ")}.` : `All ${of} answered.`;
}

export class Sheet {
  /** `acts` has what the buttons do, by their names, `turn` which is told whether one call is asked at a time, and what a card
      is told. */
  constructor(parent, acts) {
    Object.assign(this, { parent, acts, cards: new Map() });
    this.course = element("nav", { class: "course", "aria-label": "Exercises" });
    this.status = element("p", { role: "status", class: "progress", tabindex: "-1" });
    this.bar = element("progress", {});
    this.buttons = Object.fromEntries(BUTTONS.map(([name, words, look]) => [name, button(words, acts[name], { class: look })]));
    this.turn = element("input", { type: "checkbox" });
    this.turn.addEventListener("change", () => acts.turn(this.turn.checked));
    this.printed = element("section", { class: "printed", hidden: true });
    const { mark, check, ...others } = this.buttons;
    this.marking = element("div", { class: "marking" }, this.bar, this.status, element("div", { class: "acts" },
      element("div", { class: "buttons" }, mark, check), element("div", { class: "buttons others" },
        element("label", { class: "tick" }, this.turn, "one at a time"), Object.values(others))));
    // A print has the calls that are made already too.
    window.addEventListener("beforeprint", () => this.before?.setAttribute("open", ""));
  }

  /** Draws an exercise; `objects` has the threads and endpoints that an answer is chosen from, and the bits of a word. */
  draw({ title, task, calls }, name, objects) {
    this.cards = new Map(calls.map((call) => [call.number, new Card(call, objects, this.acts)]));
    this.first = calls.find(({ asked }) => asked).number;
    const made = [...this.cards.values()].filter(({ number }) => number < this.first);
    const others = [...this.cards.values()].slice(made.length);
    this.before = drawBefore(made);
    this.parent.replaceChildren(...[this.course, ...drawTask(title || name, counted(this.asking.length, "question"), task), this.printed,
      this.cutting.length > 0 ? element("p", { class: "dim" }, HOW_TO_CUT) : null,
      drawWay("the state that the questions begin in", this.acts.see), this.before,
      element("ol", { class: "cards" }, others.map((card) => card.element)), this.marking].filter(Boolean));
  }

  /** Puts the focus on the title, and the sheet at its beginning. */
  focus() {
    this.parent.scrollTop = 0;
    this.parent.querySelector("h1").focus();
  }

  /** The cards that ask. */
  get asking() {
    return [...this.cards.values()].filter(({ prediction }) => prediction);
  }

  /** The answers that are given, by the numbers of their calls. */
  get answers() {
    return new Map(this.asking.map(({ number, answer }) => [number, answer]).filter(([, answer]) => answer));
  }

  /** The cards that ask for bits. */
  get cutting() {
    return this.asking.filter(({ cutting }) => cutting);
  }

  /** Behind which bits they are cut, by the numbers of their calls. */
  get cuts() {
    return Object.fromEntries(this.cutting.map(({ number, cutting }) => [number, cutting.value]));
  }

  /** The numbers of the calls without an answer, and of those whose answer is marked as wrong, or whose bits are. */
  get missing() {
    return this.asking.filter(({ answer }) => !answer).map(({ number }) => number);
  }

  get wrong() {
    return this.asking.filter(({ isWrong, cutting }) => isWrong || cutting?.isWrong).map(({ number }) => number);
  }

  /** Shows how far one is: the words, and what can be done. Where one call is asked at a time, those behind it are hidden. */
  show(view) {
    const { stage, right, of, current, checked, isLast } = view;
    const { missing, wrong } = this;
    this.status.textContent = progressOf({ ...view, missing, wrong });
    const isMarked = stage !== ASKED || current !== 0;
    Object.assign(this.bar, { max: of, value: isMarked ? right : of - missing.length });
    this.bar.setAttribute("aria-label", isMarked ? "Right answers" : "Answers given");
    this.turn.closest("label").hidden = stage !== ASKED || checked > 0;
    this.turn.checked = view.inTurn;
    for (const card of this.cards.values()) card.element.hidden = current !== 0 && card.number > current;
    const hidden = { mark: stage === SHOWN || current !== 0, check: current === 0, reveal: stage !== MARKED,
      next: stage !== SHOWN || isLast, save: stage === ASKED && (current !== 0 || missing.length === of),
      restart: stage === ASKED && checked === 0, leave: false };
    for (const [name, isHidden] of Object.entries(hidden)) this.buttons[name].hidden = isHidden;
    this.buttons.mark.disabled = missing.length > 0 || wrong.length > 0;
    this.buttons.mark.textContent = stage === MARKED ? "mark again" : "mark my answers";
    this.buttons.check.disabled = missing.includes(current);
  }
}
