// The kernel's rules, docs/behaviour.md, in a dialog of the page: a text in the part of Markdown that it is written in.
import { element } from "../../page/source/element.mjs";

/** The section that has the rule of an operation, by the title of the section. */
const SECTIONS = {
  retype: "Retype", copy: "Copy, mint, move and mutate", mint: "Copy, mint, move and mutate", move: "Copy, mint, move and mutate",
  mutate: "Copy, mint, move and mutate", delete: "Delete and revoke", revoke: "Delete and revoke", cancel_badged: "Cancelling badged sends",
  send: "Send and receive", nbsend: "Send and receive", recv: "Send and receive", nbrecv: "Send and receive", set_space: "Threads",
  suspend: "Threads", resume: "Threads",
};
const INLINE = /`([^`]+)`|\*\*([^*]+)\*\*|\*([^*]+)\*|\[([^\]]+)\]\([^)]*\)/u;
const ROW = /^\|(.*)\|$/u;

const idOf = (title) => `rule-${title.toLowerCase().replace(/[^a-z]+/gu, "-").replace(/^-|-$/gu, "")}`;

/** A line of text as children of an element; a link is its words, since a page alone has no other pages. */
function inline(text) {
  const found = INLINE.exec(text);
  if (!found) return [text];
  const [whole, code, strong, emphasis, link] = found;
  const made = code ? element("code", {}, code) : strong ? element("b", {}, inline(strong)) : emphasis ? element("em", {}, inline(emphasis)) : inline(link);
  return [text.slice(0, found.index), made, ...inline(text.slice(found.index + whole.length))].flat();
}

const cellsOf = (line) => ROW.exec(line)[1].split(/(?<!\\)\|/u).map((it) => inline(it.trim()));

function drawTable([head, , ...rows]) {
  return element("table", {}, element("thead", {}, element("tr", {}, cellsOf(head).map((it) => element("th", { scope: "col" }, it)))),
    element("tbody", {}, rows.map((row) => element("tr", {}, cellsOf(row).map((it) => element("td", {}, it))))));
}

/** A block of lines: a table, a list whose items may go on in lines that are indented, or a paragraph. */
function drawBlock(lines) {
  if (ROW.test(lines[0])) return drawTable(lines);
  const item = /^(?:-|\d+\.) /u;
  if (!item.test(lines[0])) return element("p", {}, inline(lines.join(" ")));
  const items = [];
  for (const line of lines) {
    if (item.test(line)) items.push(line.replace(item, ""));
    else items[items.length - 1] += ` ${line.trim()}`;
  }
  return element(lines[0].startsWith("-") ? "ul" : "ol", {}, items.map((it) => element("li", {}, inline(it))));
}

function drawHeading(line) {
  const [, signs, title] = /^(#+) (.*)$/u.exec(line);
  const id = idOf(title.replace(/ \*.*$/u, ""));
  return element(signs.length === 1 ? "h2" : "h3", { id, tabindex: "-1" }, inline(title));
}

/** Draws the rules, section by section. */
const drawRules = (text) => text.split(/\n{2,}/u).filter(Boolean)
  .map((block) => (block.startsWith("#") ? drawHeading(block) : drawBlock(block.split("\n"))));

/** The rules, in a dialog of the page. */
export class Rules {
  constructor(dialog, text) {
    this.dialog = dialog;
    dialog.querySelector(".rules").append(...drawRules(text));
  }

  /** Shows all of them, from the one of an operation on, if one is given. */
  show(operation) {
    this.dialog.showModal();
    const heading = document.getElementById(idOf(SECTIONS[operation] ?? "The kernel's rules"));
    heading.scrollIntoView();
    heading.focus();
  }
}
