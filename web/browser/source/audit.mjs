// Who reaches what, who can send to whom, and what each revoke would destroy.
import { drawChannels, wayOf } from "../../page/source/channels.mjs";
import { button, dim, element, fold, heading } from "../../page/source/element.mjs";
import { drawNamed } from "./named.mjs";
import { savable } from "./savable.mjs";

const FORMS = {
  name: /^name (\S+) (\d+)$/u,
  thread: /^thread (\d+(?: @\S+)?) (.*)$/u,
  same: /^ {2}as (\d+(?: @\S+)?)$/u,
  reach: /^ {2}reach \d+ (\d+) slot (\d+) (.*)$/u,
  hold: /^ {2}hold \d+ (\d+) index (\d+) depth (\d+) slot (\d+) (.*)$/u,
  channel: /^channel /u,
  revoke: /^revoke (\d+) (.*) clears (\d+)$/u,
  ends: /^ {2}ends (.*)$/u,
  change: /^ {2}([-+]) (.*)$/u,
};
/** So many revokes are drawn at first. */
const MOST_SHOWN = 100;

/** The lines of a text of `audit`, each with its form. */
function linesOf(text) {
  return text.split("\n").slice(0, -1).map((line) => {
    for (const [form, pattern] of Object.entries(FORMS)) {
      const found = pattern.exec(line);
      if (found) return { form, line, found: found.slice(1) };
    }
    return { form: "other", line, found: [] };
  });
}

/** Lines with those that stand below each: of `outer` each with the next ones of `inner`. */
function grouped(lines, outer, inner) {
  const groups = [];
  for (const it of lines) {
    if (it.form === outer) groups.push({ ...it, below: [] });
    else if (inner.includes(it.form) && groups.length > 0) groups.at(-1).below.push(it);
  }
  return groups;
}

/** The thread that another one is told as, since it can name just the same. */
const firstOf = ({ below }) => below.find(({ form }) => form === "same")?.found[0];

/** The threads that are told as another one, by that one. */
function spacesOf(threads) {
  const spaces = new Map();
  for (const thread of threads) {
    const first = firstOf(thread);
    if (first !== undefined) spaces.set(first, [...(spaces.get(first) ?? []), thread.found[0]]);
  }
  return spaces;
}

/** Threads, each with the lines of all that it can name. */
function inFull(threads) {
  const byThread = new Map(threads.map((thread) => [thread.found[0], thread]));
  return threads.map((thread) => ({ ...thread, below: (byThread.get(firstOf(thread)) ?? thread).below }));
}

/** Draws the first of some things by `draw`, which takes a list of them, and the rest when it is asked for. */
function drawSome(things, what, draw) {
  const rest = things.slice(MOST_SHOWN);
  return [draw(things.slice(0, MOST_SHOWN)), rest.length > 0 ? fold(rest.length, what, () => draw(rest)) : null];
}

function drawChange({ found: [sign, line] }) {
  return element("div", { class: sign === "-" ? "change emptied-line" : "change filled-line" }, `${sign} ${line}`);
}

function drawRevoke({ found: [slot, capability, count], below }, choose) {
  const row = button(`slot ${slot}`, () => choose(slot), { class: "link", title: "What such a revoke changes, line by line" });
  const ends = below.filter(({ form }) => form === "ends").map(({ found: [what] }) => element("li", {}, `ends ${what}`));
  return element("div", { class: "revoke" }, row, ` ${capability} `, element("b", {}, `clears ${count}`),
    ends.length > 0 ? element("ul", { class: "reason" }, ends) : null);
}

function drawOne(into, revoke, choose) {
  const all = button("all that the audit says", () => choose(""));
  into.replaceChildren(element("p", {}, all), heading("A revoke of one slot", "as if a thread made it now; + comes, - goes"),
    drawRevoke(revoke, choose), element("div", { class: "changes" }, revoke.below.filter(({ form }) => form === "change").map(drawChange)));
}

function drawRevokes(revokes, choose) {
  const draw = (some) => element("div", {}, some.map((it) => drawRevoke(it, choose)));
  return drawSome(revokes, "revokes", draw).filter(Boolean);
}

/** Draws a text of `audit` into an element; `choose` is told the slot whose revoke is asked for, or "" for all, and `save` the
    drawing that is to be saved, and its name. */
export function drawAudit(into, text, { choose, save }) {
  const lines = linesOf(text);
  const revokes = grouped(lines, "revoke", ["ends", "change"]);
  if (/^audit .* slot \d+$/mu.test(lines[0]?.line ?? "") && revokes.length === 1) {
    drawOne(into, revokes[0], choose);
    return;
  }
  const threads = grouped(lines, "thread", ["reach", "hold", "same"]);
  const channels = lines.filter(({ form }) => form === "channel").map(({ line }) => line);
  const drawing = drawChannels(channels.map(wayOf).filter(Boolean), spacesOf(threads), "Who can send to whom; the text below says the same");
  into.replaceChildren(
    heading("Who can send to whom", "by a word; an endpoint, a badge that the receiver is told, and rights"),
    ...[drawing && savable(drawing, () => save(drawing.querySelector("svg"), "channels"))].filter(Boolean),
    element("pre", { class: "told", tabindex: "0", "aria-label": "Channels as text" }, channels.join("\n") || "nobody"),
    heading("What each thread can name", "by a word of a call; in dim letters, by a CNode's word with an index and a depth"),
    ...drawNamed(inFull(threads)),
    heading("What a revoke would do", "of each slot with children, whether or not a thread can name it"),
    ...drawRevokes(revokes, choose),
    element("p", {}, dim(lines[0]?.line ?? "")));
}
