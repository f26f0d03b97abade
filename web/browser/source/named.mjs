// What each thread can name, as a table: a row for each slot with its capability, a column for each thread.
import { code, dim, element, fold } from "../../page/source/element.mjs";

/** So many rows are drawn at first. */
const ROWS_SHOWN = 100;
/** Where there are more columns than this, each thread has a table of its own. */
const MOST_COLUMNS = 8;

/** What a line says: the slot, its capability, and the words that name it; `isHeld` where it takes an index and a depth. */
function toldBy({ form, found }) {
  const [word, ...rest] = found;
  const [slot, capability] = rest.slice(-2);
  const isHeld = form === "hold";
  return { slot, capability, isHeld, words: isHeld ? `${word}, index ${rest[0]}, depth ${rest[1]}` : word };
}

/** The columns: threads that name the same slots by the same words share one. */
function columnsOf(threads) {
  const columns = new Map();
  for (const { found: [thread, state], below } of threads) {
    const told = below.map(toldBy);
    const key = told.map(({ slot, words }) => `${slot}: ${words}`).join("\n");
    if (!columns.has(key)) columns.set(key, { threads: [], named: new Map(told.map((it) => [it.slot, it])) });
    columns.get(key).threads.push({ thread, state });
  }
  return [...columns.values()];
}

/** The slots that some column names, rising, each with its capability. */
function slotsOf(columns) {
  const capabilities = new Map(columns.flatMap(({ named }) => [...named.values()].map((it) => [it.slot, it.capability])));
  return [...capabilities].sort(([one], [other]) => Number(one) - Number(other));
}

const cell = (...children) => element("td", {}, ...children);

function drawWords(told) {
  if (!told) return cell();
  return cell(told.isHeld ? dim(told.words) : code(told.words));
}

function drawHead({ threads }) {
  return element("th", { scope: "col" }, threads.map(({ thread, state }) => element("div", {}, thread, " ", element("small", {}, state))));
}

function drawTable(columns, slots) {
  const heads = ["slot", "capability"].map((it) => element("th", { scope: "col" }, it));
  const rows = slots.map(([slot, capability]) => element("tr", {}, element("th", { scope: "row" }, slot), cell(capability),
    columns.map(({ named }) => drawWords(named.get(slot)))));
  return element("div", { class: "drawing", tabindex: "0", role: "region", "aria-label": "What each thread can name" },
    element("table", { class: "named" }, element("thead", {}, element("tr", {}, heads, columns.map(drawHead))),
      element("tbody", {}, rows)));
}

/** The first rows of a table of columns, and the others when they are asked for. */
function drawRows(columns) {
  const slots = slotsOf(columns);
  const rest = slots.slice(ROWS_SHOWN);
  return [drawTable(columns, slots.slice(0, ROWS_SHOWN)),
    rest.length > 0 ? fold(rest.length, "slots", () => drawTable(columns, rest)) : null];
}

/** Draws what threads can name: each is `{ found: [thread, state], below }` with the lines `reach` and `hold` below it. */
export function drawNamed(threads) {
  const columns = columnsOf(threads);
  const parts = columns.length > MOST_COLUMNS ? columns.map((it) => [it]) : [columns];
  return parts.flatMap(drawRows).filter(Boolean);
}
