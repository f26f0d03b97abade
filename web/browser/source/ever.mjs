// What threads can never get: parts of a system as boxes, and the ways between them as lines.
import { dim, element, fold, heading } from "../../page/source/element.mjs";
import { drawWires } from "../../page/source/wires.mjs";
import { savable } from "./savable.mjs";

const PART = /^part (\d+)$/u;
const THREAD = /^ {2}thread (\d+(?: @\S+)?) (\w+)$/u;
const TRUSTED = /^(?:without|messages) (\d+(?: @\S+)?)(?: none)?$/u;
const WAY = /^way (\d+) -> (\d+) (badge \w+) -> (\d+)$/u;

/** So many parts are told at first. */
const PARTS_SHOWN = 100;

/** What a text of `ever` tells: its parts, each with its threads and its lines, the ways, the threads that are
    trusted, and the other lines, of which the first is the head. */
function partsOf(text) {
  const told = { parts: [], ways: [], trusted: [], rest: [] };
  for (const line of text.split("\n").slice(0, -1)) {
    const part = PART.exec(line);
    const way = WAY.exec(line);
    const trusted = TRUSTED.exec(line);
    if (part) told.parts.push({ id: part[1], threads: [], lines: [] });
    else if (line.startsWith("  ") && told.parts.length > 0) {
      const thread = THREAD.exec(line);
      if (thread) told.parts.at(-1).threads.push(thread.slice(1));
      told.parts.at(-1).lines.push(line.slice(2));
    } else if (way) told.ways.push({ from: way[1], endpoint: way[2], by: `${way[2]} ${way[3]}`, to: way[4], line });
    else if (trusted) told.trusted.push({ thread: trusted[1], line });
    else told.rest.push(line);
  }
  return told;
}

/** The threads that a text tells of, by rising address. */
export function threadsTold(text) {
  const { parts, trusted } = partsOf(text);
  const all = new Set([...trusted.map(({ thread }) => thread), ...parts.flatMap(({ threads }) => threads.map(([thread]) => thread))]);
  return [...all].sort((one, other) => Number.parseInt(one, 10) - Number.parseInt(other, 10));
}

function drawPart({ id, lines }) {
  return element("section", { class: "part" }, element("h3", {}, `part ${id}`),
    element("pre", {}, lines.join("\n")));
}

const drawParts = (parts) => element("div", { class: "parts" }, parts.map(drawPart));

/** The drawing of parts and ways in a box that scrolls, with a button that has it saved. */
const drawBoxed = (drawing, save) => savable(element("div", { class: "drawing", tabindex: "0", role: "region", "aria-label": "Parts and ways" },
  drawing), () => save(drawing, "parts"));

/** Draws a text of `ever` into an element; `save` is told the drawing that is to be saved, and its name. */
export function drawEver(into, text, save) {
  const { parts, ways, trusted, rest } = partsOf(text);
  const boxes = parts.map(({ id, threads }) => ({ id, title: `part ${id}`, lines: threads.map(([thread]) => thread) }));
  const drawing = drawWires(boxes, ways, `${parts.length} parts and ${ways.length} ways between them; the text below says the same`);
  const last = rest.slice(1);
  into.replaceChildren(
    heading("Parts and ways", "no list of calls of their threads leads out of the parts; a way is by an endpoint and a badge"),
    drawing ? drawBoxed(drawing, save) : element("p", {}, dim(parts.length === 0 ? "There are no parts." : "Too many parts and ways to draw.")),
    element("pre", { class: "told", tabindex: "0", "aria-label": "Ways" },
      [...trusted.map(({ line }) => line), ...ways.map(({ line }) => line), ...last].join("\n")),
    heading("What each part may ever hold", "memory of its own, and uses of endpoints"),
    drawParts(parts.slice(0, PARTS_SHOWN)),
    ...(parts.length > PARTS_SHOWN ? [fold(parts.length - PARTS_SHOWN, "parts", () => drawParts(parts.slice(PARTS_SHOWN)))] : []),
    element("p", {}, dim(rest[0] ?? "")));
}
