// The list of calls. Only the rows in sight are in the page, since a run may have 65,536 calls.
import { dim, element } from "./element.mjs";
import { wasAskedFor } from "./calls_to_ask.mjs";

const ROW_HEIGHT = 44;
const ROWS_AROUND = 10;

/** The next step, on from one in a direction and around the ends, that a test holds for; or -1. */
export function nextStep(steps, from, direction, holds) {
  for (let distance = 1; distance <= steps.length; distance += 1) {
    const number = (from + direction * distance + steps.length * 2) % steps.length;
    if (holds(steps[number])) return number;
  }
  return -1;
}

/** Whether a step's lines have a text in them, or what the page writes of it. */
export function hasText(step, told, text) {
  const lines = [step.line, step.with, ...step.ways.map(({ line }) => line), ...step.reasons, ...step.changes.map(({ line }) => line.text), ...told.texts];
  return lines.some((line) => line.includes(text));
}

/** Whether a step's expectation is not met. */
export const isMissed = ({ expectation }) => expectation.startsWith("not met");

/** Whether a step is a revoke. */
export const isRevoke = ({ operation }) => operation === "revoke";

function drawOutcome({ expectation }) {
  if (!expectation) return null;
  const met = expectation === "met";
  return element("span", { class: met ? "tag met" : "tag missed", title: expectation }, met ? "✓ met" : "✗ not met");
}

/** The first line of a row: the operation, and the call's words in short. */
function drawTitle(trace, { number, operation, thread }) {
  if (number === 0) return element("span", { class: "title" }, element("b", {}, "boot"));
  const name = trace.names.get(thread)?.[0] ?? thread;
  const { gist, named } = trace.told[number];
  return element("span", { class: "title", title: `${operation} ${name} ${gist}` },
    element("b", {}, operation), " ", element("span", { class: "dim code" }, `${name} ${named}`));
}

/** A row of the list; of a call that is not told yet, its reply is left out. */
function drawCall(trace, step, isTold, current) {
  const { number, changes } = step;
  const count = trace.steps.length;
  const reply = isTold ? step.reply : "";
  const isBranch = wasAskedFor(trace, number);
  const look = `call${current ? " current" : ""}${reply.startsWith("refused") ? " refused" : ""}${isBranch ? " branch" : ""}`;
  const attributes = { class: look, role: "option", id: `call-${number}`, "aria-selected": String(current),
    "aria-setsize": count, "aria-posinset": number + 1, "data-number": number };
  const row = element("div", attributes,
    element("span", { class: "number" }, number === 0 ? "" : String(number)),
    drawTitle(trace, step),
    element("span", { class: "outcome" }, isTold ? drawOutcome(step) : null),
    element("span", { class: "answer" }, number === 0 ? dim(`${changes.length} lines`) : reply));
  row.style.top = `${number * ROW_HEIGHT}px`;
  return row;
}

/** The list of a trace's calls in an element that scrolls; `choose` is told of the call that is clicked. */
export class CallList {
  constructor(scroller, list, choose) {
    Object.assign(this, { scroller, list, trace: { steps: [], names: new Map() }, number: 0, told: Infinity });
    scroller.addEventListener("scroll", () => this.draw());
    list.addEventListener("click", ({ target }) => {
      const row = target.closest(".call");
      if (row) choose(Number(row.dataset.number));
    });
  }

  /** Marks a call as the current one, and brings it into sight with a call before and behind it. The replies of calls
      behind `told` are left out. */
  show(trace, number, told) {
    Object.assign(this, { trace, number, told });
    this.list.style.height = `${trace.steps.length * ROW_HEIGHT}px`;
    const top = (number - 1) * ROW_HEIGHT;
    const bottom = (number + 2) * ROW_HEIGHT;
    const { scroller } = this;
    if (top < scroller.scrollTop) scroller.scrollTop = top;
    else if (bottom > scroller.scrollTop + scroller.clientHeight) scroller.scrollTop = bottom - scroller.clientHeight;
    this.draw();
  }

  /** Draws the rows in sight and some around them, with the current one wherever it is. */
  draw() {
    const { scroller, list, trace, number, told } = this;
    const { steps } = trace;
    const first = Math.max(0, Math.floor(scroller.scrollTop / ROW_HEIGHT) - ROWS_AROUND);
    const inSight = steps.slice(first, first + Math.ceil(scroller.clientHeight / ROW_HEIGHT) + 2 * ROWS_AROUND);
    const shown = inSight.includes(steps[number]) || steps.length === 0 ? inSight : [steps[number], ...inSight];
    list.replaceChildren(...shown.map((step) => drawCall(trace, step, step.number <= told, step.number === number)));
    list.setAttribute("aria-activedescendant", `call-${number}`);
  }
}
