// The report: each call with what it was answered, and then the state that the run ends in.
import { button, code, dim, element } from "../../page/source/element.mjs";

const CALL = /^(\d+) (\d+ \w+): (.*?)( \[met\]| \[not met: .*\])?$/u;
const OF_THREAD = /^((?:thread|slot \d+ tcb) (\d+))(.*)$/u;
/** So many lines are drawn at first. */
const LINES_SHOWN = 3000;

/** The call that a line tells of, `{ number, words, reply, outcome }`, with an outcome of "met", "not met: .." or "", or null
    where it tells of none. */
export function callOf(line) {
  const found = CALL.exec(line);
  if (!found) return null;
  const [, number, words, reply, outcome = ""] = found;
  return { number: Number(number), words, reply, outcome: outcome.slice(2, -1) };
}

/** The calls of a report. */
export function callsOf(report) {
  const calls = [];
  for (const line of report.split("\n")) {
    const call = callOf(line);
    if (!call) break;
    calls.push(call);
  }
  return calls;
}

const LIVE = /^thread (\d+) /gmu;

/** The threads that live at the end, as the program tells threads elsewhere: with their names, where they have one. */
export function threadsReported(report, names) {
  return [...report.matchAll(LIVE)].map(([, address]) => (names.has(address) ? `${address} @${names.get(address)}` : address));
}

function drawOutcome(outcome) {
  if (outcome === "") return null;
  return outcome === "met" ? element("span", { class: "tag met" }, "✓ met")
    : element("span", { class: "tag missed" }, `✗ ${outcome}`);
}

/** The thread and the operation of a call; behind the thread its name, where it has one. */
function drawWords(words, names) {
  const [thread, operation] = words.split(" ");
  return names.has(thread) ? [code(thread), dim(` ${names.get(thread)} `), code(`${operation}:`)] : code(`${words}:`);
}

/** A call as a row that leads to it; `go` is told its number. */
export function drawCall({ number, words, reply, outcome }, go, names = new Map()) {
  const look = reply.startsWith("refused") ? "line call refused" : "line call";
  return button([element("span", { class: "number" }, String(number)), drawWords(words, names), " ",
    element("span", { class: "reply" }, reply), " ", drawOutcome(outcome)], () => go(number), { class: look, title: "To this call in the set-up" });
}

/** A line as it is, with the name of the thread that it is about, where that has one. */
export function drawLine(line, names = new Map()) {
  const [, thread, address, rest] = OF_THREAD.exec(line) ?? [];
  return element("div", { class: "line" }, names.has(address) ? [thread, dim(` ${names.get(address)}`), rest] : line);
}

/** The reason of a refusal, line by line. */
export const drawReason = (reason) => element("ul", { class: "reason" }, reason.split("\n").map((line) => element("li", {}, line)));

/** A call with the reason below it, where it was refused and that was not expected. */
function drawReasoned(call, go, { reasons, names }) {
  const [row, reason] = [drawCall(call, go, names), reasons.get(call.number)];
  return reason && call.outcome !== "met" ? element("div", { class: "reasoned" }, row, drawReason(reason)) : row;
}

/** The rows of a report: its calls, and below a heading the state. */
function rowsOf(report, go, known) {
  const calls = callsOf(report);
  const lines = report.split("\n").slice(calls.length, -1);
  const heading = () => element("h2", {}, calls.length > 0 ? "The state at the end" : "The state after boot");
  return [...calls.map((call) => () => drawReasoned(call, go, known)), ...(lines.length > 1 ? [heading] : []),
    ...lines.map((line) => () => drawLine(line, known.names))];
}

/** Draws rows into an element, each by a function. Many are drawn as far as a reader gets at first, with a button for the
    rest. */
export function drawRows(into, rows) {
  const rest = rows.slice(LINES_SHOWN);
  into.replaceChildren(...rows.slice(0, LINES_SHOWN).map((draw) => draw()));
  if (rest.length === 0) return;
  const more = button(`show ${rest.length} more lines`, () => more.replaceWith(...rest.map((draw) => draw())));
  into.append(element("p", {}, more, " ", dim("or save the output as a file")));
}

/** Draws a report into an element; `go` is told the number of a call that is chosen. What is known besides is drawn too: the
    `reasons` of refused calls by their numbers, and the `names` of threads by their addresses. */
export function drawReport(into, report, go, known) {
  drawRows(into, rowsOf(report, go, known));
}
