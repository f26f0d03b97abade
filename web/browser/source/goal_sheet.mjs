// The sheet of an exercise with a goal: its task, the calls that are made already, those of its reader, the goal, and how far it is.
import { Card } from "./card.mjs";
import { button, code, counted, dim, element } from "../../page/source/element.mjs";
import { drawBits } from "./bits.mjs";
import { drawBefore, drawTask, drawWay } from "./sheet.mjs";
import { drawReason } from "./report.mjs";
import { link } from "./basics.mjs";
import { meaningOf } from "../../page/source/refusals.mjs";

const BUTTONS = [["next", "next exercise"], ["save", "save my answer"], ["restart", "begin anew"], ["leave", "the set-up itself"]];
const HOW = "Choose an operation above the drawings, press the slots in them, and “try it”. Or write calls here, as they stand in a set-up.";

/** How far one is, in words; a fault of what was typed is told alone. */
function progressOf({ fault, isReached, number, count, reply, others }) {
  if (fault) return fault;
  if (isReached) return `✓ Reached, in ${counted(count, "call")}.`;
  if (others.length > 0) return `Call ${others.join(", ")}: this thread makes none of your calls.`;
  return `Not reached: call ${number} is answered: ${reply}.`;
}

export class GoalSheet {
  /** `acts` has what the buttons do, by their names; `typed` is told what is typed, `takeBack` and `step` the number of a call, and `rule` an
      operation. */
  constructor(parent, acts) {
    Object.assign(this, { parent, acts });
    this.status = element("p", { role: "status", class: "progress", tabindex: "-1" });
    this.buttons = Object.fromEntries(BUTTONS.map(([name, words]) => [name, button(words, acts[name])]));
    this.marking = element("div", { class: "marking of-goal" }, this.status, element("div", { class: "buttons others" }, Object.values(this.buttons)));
    this.list = element("ol", { class: "cards" });
    this.typed = element("textarea", { rows: "4", spellcheck: "false", autocomplete: "off", "aria-label": "Your calls, as they are written" });
    this.typed.addEventListener("input", () => acts.typed(this.typed.value));
    this.now = element("div", { class: "outcome" });
  }

  /** Draws an exercise, below the course that it belongs to. */
  draw(told, { name, course, printed, wordBits, handedIn }) {
    Object.assign(this, { told, wordBits });
    const { title, task, given, goal, threads } = told;
    this.given = given.map((call) => this.card(call));
    const goalCard = element("section", { class: "card goal", "aria-label": "The goal" }, element("h2", {}, "The goal"),
      goal.words ? element("p", { class: "words" }, goal.words) : null, this.card(goal).pairs,
      element("p", {}, "is to be answered: ", code(goal.expected)), this.now);
    const mine = element("section", { class: "mine", "aria-label": "Your calls" },
      element("h2", {}, "Your calls", threads ? dim(` of ${threads.join(", ")}`) : ""), this.list, element("p", { class: "dim how" }, HOW), this.typed);
    this.parent.replaceChildren(...[course, ...drawTask(title || name, "a goal", task), handedIn ? element("p", { class: "dim" }, handedIn) : null, printed,
      drawWay("the state that your calls begin in", this.acts.see), drawBefore(this.given), goalCard, mine, this.marking].filter(Boolean));
  }

  card(call) {
    return new Card(call, { wordBits: this.wordBits }, this.acts);
  }

  /** Shows what the calls are answered, and how far that is from the goal; of typed text that is refused, what is wrong. */
  show(view) {
    const { calls, replies, reasons, fault, isReached, isLast, isBegun } = view;
    this.status.textContent = progressOf(view);
    this.marking.classList.toggle("reached", isReached);
    const hidden = { next: !isReached || isLast, save: !isBegun, restart: !isBegun, leave: false };
    for (const [name, isHidden] of Object.entries(hidden)) this.buttons[name].hidden = isHidden;
    this.typed.classList.toggle("faulty", fault !== "");
    if (fault) return;
    const show = (card) => card.show(replies.get(card.number) ?? {}, reasons.get(card.number));
    this.given.forEach(show);
    const cards = calls.map((call) => this.card(call));
    cards.forEach(show);
    for (const { number, outcome } of cards) {
      outcome.append(element("p", {}, link("take this call back", () => this.acts.takeBack(number))));
    }
    this.list.replaceChildren(...cards.map((card) => card.element));
    this.showGoal(view);
  }

  /** What the goal's call is answered now, and why where it is refused; once it is reached, why that is so. */
  showGoal({ number, reply, reasons, isReached }) {
    const reason = reasons.get(number);
    this.now.replaceChildren(...[
      element("p", { class: "answered" }, element("span", { class: isReached ? "tag met" : "tag missed" }, isReached ? "✓ reached" : "✗ not reached"), ` call ${number} is answered: `,
        code(reply), " ", dim(meaningOf(reply))),
      isReached && this.told.goal.because ? element("p", { class: "because" }, this.told.goal.because) : "",
      ...(reason ? [drawReason(reason), drawBits(reason, this.wordBits)] : []),
    ].filter(Boolean));
  }
}
