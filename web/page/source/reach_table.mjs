// The table of what each thread can invoke: a row for each object, a column for threads with the same capabilities by
// the same words, and in a cell one line for each capability.
import { code, counted, dim, element, fold, heading } from "./element.mjs";
import { countWays, drawChannels } from "./channels.mjs";
import { objectName, threadName, wholeDetailsOf } from "./names.mjs";
import { reachOf, sourceOf } from "./reach.mjs";

const MOST_OBJECTS = 120;
const MOST_WORDS = 3;
const MOST_COPIES = 3;
const MOST_THREADS = 6;

/** What comes behind the first few of some things: a fold. */
function foldRest(all, most, what, draw) {
  const rest = all.slice(most);
  return rest.length > 0 ? fold(rest.length, what, () => rest.map(draw)) : null;
}

/** The first few of some things, and a fold with the others. */
const some = (all, most, what, draw) => [all.slice(0, most).map(draw), foldRest(all, most, what, draw)];

/** A capability of a row's object: the words that lead to it, and what it allows. */
function drawWay(view, { capability, words }) {
  const draw = (word, place) => [place > 0 ? " " : "", code(word)];
  return element("div", { class: "way" }, element("span", { class: "by" }, words.slice(0, MOST_WORDS).map(draw)), ": ",
    element("span", { class: "dim code what" }, wholeDetailsOf(capability, view.trace.machine)),
    element("div", { class: "by" }, foldRest(words, MOST_WORDS, "words", draw)));
}

/** What a copy of this row's object, from a CNode in another row, would give. */
function drawCopy(view, { capability, from }) {
  const nodes = [...from].map((node) => node.replace("cnode ", "")).join(", ");
  return element("div", { class: "dim copy", "data-from": nodes }, `by a copy or move from ${nodes}: `,
    element("span", { class: "code what" }, wholeDetailsOf(capability, view.trace.machine)));
}

/** A capability that a copy from this row's CNode would give. */
function drawGiven(view, { capability }) {
  return element("div", { class: "dim given", "data-given": capability.object }, objectName(view, capability), " ",
    element("span", { class: "code what" }, wholeDetailsOf(capability, view.trace.machine)));
}

function drawCell(view, { ways, copies, given }) {
  if (ways.length + copies.length === 0) return element("td", {}, dim("–"));
  const title = given.length > 0 ? dim("and by a copy or move from it:") : null;
  return element("td", {}, ways.map((way) => drawWay(view, way)),
    some(copies, MOST_COPIES, "by a copy or move", (copy) => drawCopy(view, copy)),
    title, some(given, MOST_COPIES, "from it", (copy) => drawGiven(view, copy)));
}

/** The head of a column: the threads that share it, with their names. */
function drawColumnName(view, threads) {
  const draw = (thread) => element("div", {}, threadName(view, thread));
  const attributes = { scope: "col", "data-threads": threads.join(" ") };
  return element("th", attributes, some(threads, MOST_THREADS, "threads", draw));
}

function drawRow(view, { capability, cells }) {
  return element("tr", { "data-row": capability.object },
    element("th", { scope: "row" }, objectName(view, capability)), cells.map((cell) => drawCell(view, cell)));
}

function drawTable(view, columns, rows) {
  const table = element("table", {}, element("caption", { class: "unseen" }, "Objects that threads can invoke"),
    element("thead", {}, element("tr", {}, element("th", { scope: "col" }, "object"),
      columns.map((threads) => drawColumnName(view, threads)))),
    element("tbody", {}, rows.map((row) => drawRow(view, row))));
  const label = "What each thread can invoke, table";
  const attributes = { class: "scroll", tabindex: "0", role: "region", "aria-label": label };
  return element("div", attributes, table);
}

/** Who can send to whom in the state behind a step, where the page has an audit of it. */
export function drawWays({ after }) {
  if (!after.audit) return [];
  const { ways, spaces } = after.audit;
  const drawing = drawChannels(ways, spaces, "Who can send to whom, by which word, under which badge");
  const remark = `by a word; an endpoint, the badge that the receiver is told, and rights. ${sourceOf(after)}`;
  const none = ways.length > 0 ? `${counted(countWays(ways, spaces), "way")}, too many to be drawn` : "nobody";
  return [heading("Who can send to whom", remark), drawing ?? element("p", {}, none)];
}

/** The table of what each thread can invoke in the state behind a step. */
export function drawReachTable(view) {
  const { columns, rows } = reachOf(view.after);
  const remark = "a line is a capability: the words that lead to it, and what it allows. Threads with the same lines "
    + "share a column. Dim: what one copy or move from a CNode would give besides, if there is an empty slot for it; a "
    + `mint can also set a badge where there is none, and several calls may give more. ${sourceOf(view.after)}`;
  const rest = rows.slice(MOST_OBJECTS);
  return [heading("What each thread can invoke now", remark), drawTable(view, columns, rows.slice(0, MOST_OBJECTS)),
    rest.length > 0 ? fold(rest.length, "objects", () => drawTable(view, columns, rest)) : null];
}
