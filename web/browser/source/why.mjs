// Why calls were refused: each call with its reason below it.
import { drawBits } from "./bits.mjs";
import { callOf, drawCall, drawLine, drawReason, drawRows } from "./report.mjs";
import { element } from "../../page/source/element.mjs";
import { meaningOf } from "../../page/source/refusals.mjs";

/** The calls of a text of `why` with their reasons, `{ call, reason }`, and behind them the lines that sum up. */
function reasonsOf(text) {
  const reasons = [];
  const rest = [];
  for (const line of text.split("\n").slice(0, -1)) {
    const call = callOf(line);
    if (call) reasons.push({ call, reason: [] });
    else if (line.startsWith("  ") && reasons.length > 0) reasons.at(-1).reason.push(line.slice(2));
    else rest.push(line);
  }
  return { reasons, rest };
}

/** The reasons by the numbers of their calls. */
export const reasonsByCall = (text) => new Map(reasonsOf(text).reasons
  .map(({ call, reason }) => [call.number, reason.join("\n")]));

function drawRefused({ call, reason }, go, wordBits) {
  return element("div", { class: "reasoned" }, drawCall(call, go), element("p", { class: "meaning dim" }, meaningOf(call.reply)), drawReason(reason.join("\n")), drawBits(reason.join("\n"), wordBits));
}

/** Draws a text of `why` into an element; `go` is told the number of a call that is chosen, and a word has `wordBits`. */
export function drawWhy(into, text, go, wordBits) {
  const { reasons, rest } = reasonsOf(text);
  if (reasons.length === 0) into.replaceChildren(element("p", {}, "No call was refused."));
  else drawRows(into, [...reasons.map((it) => () => drawRefused(it, go, wordBits)), ...rest.map((line) => () => drawLine(line))]);
}
