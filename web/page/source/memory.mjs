// The memory as bars: one for all of it, and one for each untyped region that lies in no other, with what is in it.
import { dim, element, heading, place } from "./element.mjs";
import { kindLetter, kindWord, nameOfObject, objectName } from "./names.mjs";

const ROW_HEIGHT = 21;
const LEAST_LABELLED = 0.07;
const LEAST_DRAWN = 0.012;
const LEAST_SPAN = 64;
const MOST_NAMED = 16;

/** The live objects, and those that ended at this step. Where several slots hold one untyped region, the one that was
    derived last tells how much is used: the others count as used up. */
function objectsOf(view) {
  const objects = new Map();
  for (const { capability } of view.after.slots) {
    const known = objects.get(capability.object);
    const free = known ? Math.min(known.free, capability.free) : capability.free;
    const fate = view.changes.born.has(capability.object) ? "born" : "";
    objects.set(capability.object, { ...capability, free, fate });
  }
  for (const [object, capability] of view.changes.ended) objects.set(object, { ...capability, fate: "ended" });
  return [...objects.values()].sort((one, other) => one.base - other.base || other.size - one.size);
}

const end = ({ base, size }) => base + size;

/** What is said of an object that has no capability any more: of an untyped region nothing ends with the last one. */
const lossOf = ({ kind, fate }) => (fate !== "ended" ? "" : kind === "untyped" ? "its capability is gone" : "ended");

/** Tells each object how many untyped regions are around it, `depth`, and the outermost of them or itself, `top`. */
function nest(objects) {
  const around = [];
  for (const object of objects) {
    while (around.length > 0 && end(object) > end(around.at(-1))) around.pop();
    object.depth = around.length;
    object.top = around[0] ?? object;
    if (object.kind === "untyped") around.push(object);
  }
  return objects;
}

/** Joins small neighbours of one kind, which would be too narrow to see one by one. */
function joined(objects, span) {
  const rows = [];
  for (const object of objects) {
    const last = rows.at(-1);
    const fits = last && last.kind === object.kind && object.kind !== "untyped" && last.depth === object.depth
      && last.fate === object.fate && object.base === end(last) && object.size / span < LEAST_DRAWN;
    if (fits) Object.assign(last, { size: last.size + object.size, count: last.count + 1 });
    else rows.push({ ...object, count: 1 });
  }
  return rows;
}

function drawBox(object, start, span, row, least) {
  const { kind, base, size, fate, count = 1 } = object;
  const several = count > 1 ? `${count} × ` : "";
  const loss = lossOf(object);
  const title = `${several}${kindWord(kind)} ${base}, ${size} bytes${loss && ", "}${loss}`;
  const label = size / span > least ? `${loss && "✕ "}${several}${kindLetter(kind)} ${base}` : "";
  const box = element("div", { class: `box ${kind} ${fate}`, title, "data-object": object.object }, label);
  box.style.top = `${1 + row * ROW_HEIGHT}px`;
  return place(box, (base - start) / span, size / span);
}

function drawBar(boxes, rows, label) {
  const bar = element("div", { class: "bar", role: "img", "aria-label": label }, boxes);
  bar.style.height = `${2 + Math.max(1, rows) * ROW_HEIGHT}px`;
  return bar;
}

function drawAxis(addresses) {
  const marks = addresses.map((address) => element("span", {}, String(address)));
  return element("div", { class: "axis", "aria-hidden": "true" }, marks);
}

/** How much of a region is drawn: all of it, or a part by a power of two where little of it is used. */
function spanOf(region, inside) {
  if (inside.length === 0) return region.size;
  const used = Math.max(region.free, ...inside.map((object) => end(object) - region.base));
  let span = region.size;
  while (span / 2 >= used * 1.1 && span > LEAST_SPAN) span /= 2;
  return span;
}

/** Whether nothing is derived from a region, so that the next retype begins anew. */
function isUnusedAgain(view, region, parents) {
  const holders = view.after.slots.filter(({ capability }) => capability.object === region.object);
  return region.free > 0 && region.fate !== "ended" && !holders.some(({ address }) => parents.has(address));
}

/** What is said of a region beside its bar. */
function remarkOf(region, span, isUnused) {
  const { base, size, free } = region;
  const loss = lossOf(region);
  return [`${size} B, used ${free}`, free > 0 ? ` (up to ${base + free})` : "",
    span < size ? `; drawn: the first 1/${size / span}` : "", loss && `; ${loss}`,
    isUnused ? ". Nothing is derived from it: the next retype starts at its beginning" : ""].join("");
}

function drawRegion(view, region, inside, parents) {
  const { base, size, free, fate } = region;
  const span = spanOf(region, inside);
  const name = [objectName(view, region), nameOfObject(view, region)];
  const remark = remarkOf(region, span, isUnusedAgain(view, region, parents));
  const used = place(element("div", { class: "used" }), 0, Math.min(free, span) / span);
  const boxes = joined(inside, span).map((object) => drawBox(object, base, span, object.depth - 1, LEAST_LABELLED));
  const live = inside.filter((object) => object.fate !== "ended").length;
  const label = `Untyped ${base}: ${live} objects in it, ${free} of ${size} bytes used`;
  const rows = Math.max(0, ...inside.map((object) => object.depth));
  return [element("h3", {}, fate === "ended" ? element("s", {}, name) : name, " ", dim(remark)),
    drawBar([used, ...boxes], rows, label), drawAxis([base, base + span])];
}

/** What the boxes of the whole memory are, from the left, where there is no room in them to say it. */
function drawTops(view, tops) {
  const others = tops.slice(MOST_NAMED);
  return element("ul", { class: "tops" }, tops.slice(0, MOST_NAMED).map((object) => element("li", {}, objectName(view, object), nameOfObject(view, object))),
    others.length > 0 ? element("li", { class: "dim" }, `and ${others.length} more`) : null);
}

/** The memory of the state behind a step. */
export function drawMemory(view) {
  const { memory } = view.trace.machine;
  const objects = nest(objectsOf(view));
  const tops = objects.filter((object) => object.depth === 0);
  const parents = new Set(view.after.slots.map((slot) => slot.under));
  const whole = tops.map((object) => drawBox(object, 0, memory, 0, LEAST_LABELLED));
  const regions = tops.filter((object) => object.kind === "untyped");
  const inside = (region) => objects.filter((object) => object.top === region && object !== region);
  return [heading("Memory", `${memory} bytes`),
    drawBar(whole, 1, `The whole memory: ${tops.length} objects beside one another`),
    drawAxis([0, memory / 4, memory / 2, 3 * memory / 4, memory]), drawTops(view, tops),
    regions.map((region) => drawRegion(view, region, inside(region), parents))];
}
