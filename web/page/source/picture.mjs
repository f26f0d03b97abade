// A part of the page as a picture for a slide: an SVG that has what stands there, in the colours of the page. Each box, line and
// text is drawn where the browser has put it.

/** Letters stand on a line that is so far down in their box. */
const BASELINE = 0.79;
const MARGIN = 8;
/** Hatched grounds are drawn with lines so far apart. */
const HATCH = 8;
const SIDES = ["Top", "Right", "Bottom", "Left"];
/** Where the border of each side begins and ends, in widths and heights of its box, and to where the box lies from it. */
const BORDERS = [[0, 0, 1, 0, 0, 1], [1, 0, 1, 1, -1, 0], [0, 1, 1, 1, 0, -1], [0, 0, 0, 1, 1, 0]];
/** What a drawing has from the page's styles. */
const LOOKS = ["color", "fill", "stroke", "stroke-width", "font-family", "font-size", "font-weight"];

const escaped = (text) => text.replace(/&/gu, "&amp;").replace(/</gu, "&lt;").replace(/"/gu, "&quot;");
const rounded = (value) => (typeof value === "number" ? Math.round(10 * value) / 10 : value);
const isSeen = (colour) => colour !== "transparent" && !/^rgba\(.*, 0\)$/u.test(colour);

/** An element of an SVG, as text; an attribute that is undefined is left out. */
function tag(name, attributes, content = "") {
  const given = Object.entries(attributes).filter(([, value]) => value !== undefined);
  return `<${name} ${given.map(([key, value]) => `${key}="${escaped(String(rounded(value)))}"`).join(" ")}>${content}</${name}>`;
}

/** The lines of a hatched ground. */
function hatchIn({ left, top, width, height }, colour) {
  const lines = Array.from({ length: Math.ceil((width + height) / HATCH) }, (_, at) => at * HATCH).map((at) => {
    const [from, to] = [[Math.max(0, at - height), Math.min(at, height)], [Math.min(at, width), Math.max(0, at - width)]];
    return `M${rounded(left + from[0])} ${rounded(top + from[1])}L${rounded(left + to[0])} ${rounded(top + to[1])}`;
  });
  return tag("path", { d: lines.join(""), stroke: colour, "stroke-width": HATCH / 2 });
}

/** A box with its ground, its border and the ring around it, by its place and its style. */
function* boxOf({ left, top, width, height }, style) {
  const shape = { x: left, y: top, width, height, rx: parseFloat(style.borderTopLeftRadius) || undefined };
  const hatched = /repeating-linear-gradient\(.*?(rgba?\([^)]*\))/u.exec(style.backgroundImage)?.[1];
  const widths = SIDES.map((side) => (style[`border${side}Style`] === "none" ? 0 : parseFloat(style[`border${side}Width`])));
  const colours = SIDES.map((side) => style[`border${side}Color`]);
  const isFramed = widths.every((it) => it > 0) && isSeen(colours[0]);
  const dashes = style.borderTopStyle === "dashed" ? "4 3" : style.borderTopStyle === "dotted" ? "1 2" : undefined;
  if (isSeen(style.backgroundColor) || isFramed) {
    yield tag("rect", { ...shape, fill: isSeen(style.backgroundColor) ? style.backgroundColor : "none",
      ...(isFramed ? { stroke: colours[0], "stroke-width": widths[0], "stroke-dasharray": dashes } : {}) });
  }
  if (hatched) yield hatchIn({ left, top, width, height }, hatched);
  const ring = /^(rgba?\([^)]*\)) 0px 0px 0px (\S+)px/u.exec(style.boxShadow);
  if (ring) yield tag("rect", { ...shape, fill: "none", stroke: ring[1], "stroke-width": Number(ring[2]) });
  if (isFramed) return;
  for (const [side, [x1, y1, x2, y2, inX, inY]] of BORDERS.entries()) {
    // A border lies within its box.
    const [x, y] = [left + inX * widths[side] / 2, top + inY * widths[side] / 2];
    if (widths[side] > 0 && isSeen(colours[side])) yield tag("line", { x1: x + x1 * width, y1: y + y1 * height,
      x2: x + x2 * width, y2: y + y2 * height, stroke: colours[side], "stroke-width": widths[side] });
  }
}

/** A text in a place. */
function textIn({ left, top, width, height }, words, style, isStruck) {
  return tag("text", { x: left, y: top + BASELINE * height, "font-family": style.fontFamily, "font-size": parseFloat(style.fontSize),
    "font-weight": style.fontWeight, fill: style.color, textLength: width, lengthAdjust: "spacingAndGlyphs",
    "text-decoration": isStruck ? "line-through" : undefined, "xml:space": "preserve" }, escaped(words));
}

/** The texts of a node, line by line as they are broken. */
function* linesOf(node) {
  const range = document.createRange();
  const style = getComputedStyle(node.parentElement);
  const isStruck = node.parentElement.closest("s") !== null;
  let line = null;
  for (const { 0: word, index } of node.data.matchAll(/\s*\S+\s*/gu)) {
    range.setStart(node, line?.from ?? index);
    range.setEnd(node, index + word.trimEnd().length);
    const [first, ...others] = range.getClientRects();
    if (line && others.length > 0) yield textIn(line.place, line.words, style, isStruck);
    if (!line || others.length > 0) {
      range.setStart(node, index + word.length - word.trimStart().length);
      line = { from: range.startOffset, place: range.getBoundingClientRect(), words: word.trim() };
    } else line = { ...line, place: first, words: node.data.slice(line.from, range.endOffset) };
  }
  if (line && line.place.width > 0) yield textIn(line.place, line.words, style, isStruck);
}

/** What stands before or behind an element's own children: a line of the tree, or a place in a queue. */
function* pseudoOf(made, which) {
  const style = getComputedStyle(made, which);
  if (style.content === "none" || style.content === "normal") return;
  const { left, top } = made.getBoundingClientRect();
  if (style.position === "absolute") {
    const [x, y, width, height] = [style.left, style.top, style.width, style.height].map((it) => parseFloat(it) || 0);
    yield* boxOf({ left: left + x, top: top + y, width, height }, style);
  } else if (style.content.startsWith("counter")) {
    const { height } = made.getBoundingClientRect();
    const place = { left: left + parseFloat(getComputedStyle(made).paddingLeft), top, height };
    yield textIn(place, `${[...made.parentElement.children].indexOf(made) + 1}.`, style, false);
  }
}

/** The choice of a list. */
function chosenIn(list) {
  const { left, top, height } = list.getBoundingClientRect();
  return textIn({ left: left + MARGIN, top, height }, list.selectedOptions[0]?.textContent ?? "", getComputedStyle(list), false);
}

/** All that stands in an element, in its order, but for what is not to be seen. */
function* drawn(root) {
  const walker = document.createTreeWalker(root, NodeFilter.SHOW_ELEMENT | NodeFilter.SHOW_TEXT, (node) =>
    (node.nodeType === Node.ELEMENT_NODE && node.matches(".saver, .unseen") ? NodeFilter.FILTER_REJECT : NodeFilter.FILTER_ACCEPT));
  while (walker.nextNode()) {
    const node = walker.currentNode;
    if (node.nodeType === Node.TEXT_NODE) yield* node.parentElement.matches("option") ? [] : linesOf(node);
    else if (node.getClientRects().length > 0) {
      const style = getComputedStyle(node);
      for (const place of node.getClientRects()) yield* boxOf(place, style);
      yield* pseudoOf(node, "::before");
      yield* pseudoOf(node, "::after");
      if (node.matches("select")) yield chosenIn(node);
    }
  }
}

/** A drawing of the page, an SVG itself, as the text of an SVG that stands alone: with its colours, its ground `behind` it, and
    its title for who hears it. */
export function drawingOf(svg, behind, title) {
  const copy = svg.cloneNode(true);
  const [all, copied] = [svg, copy].map((it) => [it, ...it.querySelectorAll("*")]);
  all.forEach((it, at) => {
    const style = getComputedStyle(it);
    LOOKS.forEach((look) => copied[at].setAttribute(look, style.getPropertyValue(look)));
    copied[at].removeAttribute("class");
  });
  const ground = document.createElementNS(copy.namespaceURI, "rect");
  for (const [name, value] of Object.entries({ width: "100%", height: "100%", fill: behind })) ground.setAttribute(name, value);
  copy.prepend(titleIn(copy, title), ground);
  copy.setAttribute("role", "img");
  copy.removeAttribute("aria-label");
  return new XMLSerializer().serializeToString(copy);
}

function titleIn({ namespaceURI }, title) {
  const made = document.createElementNS(namespaceURI, "title");
  made.textContent = title;
  return made;
}

/** A part of the page as the text of an SVG with a title; what is scrolled away in it is drawn too. */
export function pictureOf(part, title) {
  part.classList.add("pictured");
  const { left, top, width, height } = part.getBoundingClientRect();
  const content = [...drawn(part)].join("\n");
  const ground = getComputedStyle(part).backgroundColor;
  part.classList.remove("pictured");
  const shape = { x: left - MARGIN, y: top - MARGIN, width: width + 2 * MARGIN, height: height + 2 * MARGIN };
  const viewBox = Object.values(shape).map(rounded).join(" ");
  return tag("svg", { xmlns: "http://www.w3.org/2000/svg", viewBox, width: shape.width, height: shape.height, role: "img" },
    `${tag("title", {}, escaped(title))}\n${tag("rect", { ...shape, fill: ground })}\n${content}\n`);
}
