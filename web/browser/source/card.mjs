// One call of an exercise on its sheet: its words, the call as it is written, the fields for its answer, and what came of it.
import { Cutting } from "./cutting.mjs";
import { Prediction } from "./prediction.mjs";
import { drawBits } from "./bits.mjs";
import { code, dim, element } from "../../page/source/element.mjs";
import { drawReason } from "./report.mjs";
import { link } from "./basics.mjs";
import { meaningOf } from "../../page/source/refusals.mjs";

/** The call as it is written. */
function drawPairs(pairs) {
  const rest = [...pairs].filter(([key]) => key !== "thread" && key !== "op").map(([key, value]) => `${key} ${value}`);
  return element("p", { class: "code pairs" }, code(`${pairs.get("thread")} ${pairs.get("op")}`), " ", rest.join(", "));
}

/** The way to the rule of the operation of a call. */
const drawRule = (operation, rule) => link("rule", () => rule(operation), `the rule of ${operation}`);

/** The steps of help with a wrong answer, in their order. */
const HELP = ["help: the rule", "more help: how far it gets", "show the answer of this call"];
export const STEPS_OF_HELP = HELP.length;

const tag = (isGood, words) => element("span", { class: isGood ? "tag met" : "tag missed" }, words);

export class Card {
  /** `answered` is told the card where its answer is changed, `cut` where its bits are cut in another way, `step` the number of the call
      where its effect is asked for, `rule` its operation where the rule is asked for, and `help` the card where more help with a wrong
      answer is. `indices` has what is asked of the bits of each call, if anything is. */
  constructor(call, { wordBits, indices, ...objects }, { answered, cut, step, rule, help }) {
    Object.assign(this, { call, step, help, wordBits, number: call.number, isShown: false, outcome: element("div", { class: "outcome" }) });
    this.prediction = call.asked ? new Prediction(call, objects, () => answered(this)) : null;
    const asked = call.asked ? indices?.get(call.number) : undefined;
    this.cutting = asked ? new Cutting(call.number, asked, () => cut(this)) : null;
    const words = call.words ? element("p", { class: "words" }, call.words) : null;
    this.pairs = drawPairs(call.pairs);
    this.element = element("li", { value: String(call.number), class: call.asked ? "card asks" : "card" }, words,
      this.pairs, this.cutting?.element, element("div", { class: "answering" }, this.prediction?.element, drawRule(call.pairs.get("op"), rule)),
      this.outcome);
  }

  /** The answer that is given, or "". */
  get answer() {
    return this.prediction?.text ?? "";
  }

  set answer(text) {
    this.prediction.text = text;
  }

  /** Whether its answer is marked as wrong, and can be changed. */
  get isWrong() {
    return this.element.classList.contains("wrong") && !this.isShown;
  }

  look(isRight) {
    this.element.classList.toggle("right", isRight === true);
    this.element.classList.toggle("wrong", isRight === false);
  }

  /** Takes the mark of an answer away that is given anew. */
  unmark() {
    this.look();
    this.outcome.replaceChildren();
  }

  /** Says whether the answer is right. Only a wrong one can be changed; for it there is help, of which so many steps were taken. */
  mark(isRight, steps = 0) {
    this.look(isRight);
    this.prediction.isOpen = !isRight;
    this.outcome.replaceChildren(tag(isRight, isRight ? "✓ right" : "✗ not this"));
    if (!isRight) this.offer(steps);
  }

  /** Offers the next step of help, and tells before it how far the call gets, where that is `told`. */
  offer(steps, told) {
    const words = HELP[steps];
    this.outcome.replaceChildren(tag(false, "✗ not this"), " ", ...(told ? [drawReason(told)] : []),
      link(words, () => this.help(this), `Call ${this.number}, ${words}`));
  }

  /** Shows what was said, what the call was answered, and why. */
  show({ reply = "", outcome = "" }, reason = "") {
    const isRight = outcome === "met";
    if (!this.isShown) this.cutting?.show();
    this.isShown = true;
    if (this.prediction) this.look(isRight);
    this.prediction?.element.remove();
    const effect = link("what it changed", () => this.step(this.number));
    const mark = tag(isRight, isRight ? "✓ right" : "✗ wrong");
    this.outcome.replaceChildren(...[
      this.prediction ? element("p", {}, mark, ` you said: ${this.prediction.words || "nothing"}`) : "",
      element("p", { class: "answered" }, "answered: ", code(reply), " ", dim(meaningOf(reply)), " ", effect),
      this.call.because ? element("p", { class: "because" }, this.call.because) : "", ...(reason ? [drawReason(reason), this.cutting ? null : drawBits(reason, this.wordBits)] : []),
    ].filter(Boolean));
  }

  /** Puts the focus on the answer, and the card into sight. */
  focus() {
    this.element.scrollIntoView({ block: "center" });
    if (this.cutting?.isWrong && !this.isWrong) this.cutting.focus();
    else this.prediction?.focus();
  }

  /** Puts the focus on what came of the answer. */
  focusOutcome() {
    this.outcome.querySelector(".link")?.focus();
  }
}
