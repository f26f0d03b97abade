// A drawing of who can send to whom: a box for each that sends or receives, with its ends at the right edge, and a line
// from each end that sends to those that receive. Each end that receives has a line down of its own; where another joins
// it, there is a dot.

const SVG = "http://www.w3.org/2000/svg";
const ROW = 20;
const LETTER = 7.4;
const PADDING = 10;
const BETWEEN_BOXES = 16;
const BETWEEN_LINES = 16;
const DOT = 3.5;
const COLOURS = 4;
/** More boxes or ends than these are not drawn. */
const MOST_DRAWN = 200;

function shape(kind, attributes, ...children) {
  const made = document.createElementNS(SVG, kind);
  for (const [name, value] of Object.entries(attributes)) made.setAttribute(name, value);
  made.append(...children);
  return made;
}

const text = (x, y, look, shown, anchor = "start") => shape("text", { x, y, class: look, "text-anchor": anchor }, shown);

/** The ends of a box, each once: those that send, by what they say, and those that receive, by their endpoint. */
function endsOf({ id }, ways) {
  const ends = new Map();
  for (const { from, to, endpoint, by } of ways) {
    if (from === id) ends.set(`out ${by}`, { shown: to === null ? `${by} ▸ nobody` : `${by} ▸`, isOpen: to === null });
    if (to === id) ends.set(`in ${endpoint}`, { shown: from === null ? `nobody ▸ ${endpoint}` : `◂ ${endpoint}`, isOpen: from === null });
  }
  return ends;
}

/** Puts the boxes below one another: each with its place, and its ends with theirs. */
function placed(boxes, ways) {
  let top = 1;
  return boxes.map((box) => {
    const ends = endsOf(box, ways);
    const height = ROW * (1 + box.lines.length + ends.size) + PADDING;
    let row = top + ROW * (1 + box.lines.length) + PADDING / 2;
    for (const end of ends.values()) {
      end.y = row + ROW / 2;
      row += ROW;
    }
    const made = { ...box, top, height, ends };
    top += height + BETWEEN_BOXES;
    return made;
  });
}

const widthOf = ({ title, lines, ends }) => {
  const shown = [title, ...lines, ...[...ends.values()].map((end) => end.shown)];
  return Math.max(...shown.map(({ length }) => length)) * LETTER + 2 * PADDING;
};

/** The lines down: one for each end that receives, with the ends that send to it, from the least to the greatest height. */
function linesDown(boxes, ways) {
  const byId = new Map(boxes.map((box) => [box.id, box]));
  const lines = new Map();
  for (const { from, to, endpoint, by } of ways) {
    if (from === null || to === null) continue;
    const key = `${to} ${endpoint}`;
    if (!lines.has(key)) lines.set(key, { end: byId.get(to).ends.get(`in ${endpoint}`).y, joins: new Map() });
    const y = byId.get(from).ends.get(`out ${by}`).y;
    lines.get(key).joins.set(y, `${byId.get(from).title}: ${by} → ${byId.get(to).title}`);
  }
  return [...lines.values()].map((line) => {
    const heights = [line.end, ...line.joins.keys()];
    return { ...line, top: Math.min(...heights), bottom: Math.max(...heights) };
  });
}

/** Gives each line down the nearest column in which it meets no other: short ones first. */
function inColumns(lines) {
  const columns = [];
  for (const line of [...lines].sort((one, other) => one.bottom - one.top - (other.bottom - other.top))) {
    const isFree = (column) => column.every((other) => line.bottom < other.top || line.top > other.bottom);
    let number = columns.findIndex(isFree);
    if (number < 0) number = columns.push([]) - 1;
    columns[number].push(line);
    line.column = number;
  }
  return columns.length;
}

function drawBox({ title, lines, ends, top, height }, width) {
  const rows = [text(1 + PADDING, top + ROW, "wire-title", title),
    ...lines.map((line, row) => text(1 + PADDING, top + ROW * (row + 2), "wire-text", line))];
  const drawn = [...ends.values()].map(({ y, shown, isOpen }) => text(1 + width - PADDING / 2, y + 4,
    isOpen ? "wire-end open" : "wire-end", shown, "end"));
  return shape("g", {}, shape("rect", { x: 1, y: top, width, height, rx: 6, class: "wire-box" }), ...rows, ...drawn);
}

function drawLine(line, number, edge) {
  const x = edge + BETWEEN_LINES * (line.column + 1);
  const joins = [...line.joins].map(([y, told]) => shape("g", {}, shape("title", {}, told),
    shape("path", { d: `M${edge} ${y}H${x}` }), shape("circle", { cx: x, cy: y, r: DOT })));
  const head = shape("path", { d: `M${edge + 1} ${line.end}l9 -4.5v9z`, class: "head" });
  const way = shape("path", { d: `M${x} ${line.top}V${line.bottom}M${x} ${line.end}H${edge + 5}` });
  return shape("g", { class: `wire wire-${number % COLOURS}` }, way, head, ...joins);
}

/** Draws boxes, `{ id, title, lines }`, and the ways between them, `{ from, to, endpoint, by }`: by `by`, the box `from` can
    send on the endpoint to the box `to`; one of both is null where there is none. Gives null where there is too much. */
export function drawWires(boxes, ways, label) {
  if (boxes.length === 0 || boxes.length + ways.length > MOST_DRAWN) return null;
  const made = placed(boxes, ways);
  const width = Math.max(...made.map(widthOf));
  const lines = linesDown(made, ways);
  const columns = inColumns(lines);
  const whole = { width: Math.ceil(width + BETWEEN_LINES * (columns + 1)), height: made.at(-1).top + made.at(-1).height + 1 };
  return shape("svg", { ...whole, viewBox: `0 0 ${whole.width} ${whole.height}`, role: "img", "aria-label": label, class: "wires" },
    ...lines.map((line, number) => drawLine(line, number, 1 + width)), ...made.map((box) => drawBox(box, width)));
}
