// Whether the part of one thread is kept from the part of another: the answer in words, and what the program writes.
import { dim, element, heading } from "../../page/source/element.mjs";
import { drawOpeners } from "./opener.mjs";

const ANSWER = /^never (\d+(?: @\S+)?) part (\w+) -> (\d+(?: @\S+)?) part (\w+) (excluded|excluded by flow|possible|possible decided)$/u;
const OPEN = /^open (\d+)$/u;
const NO_PART = "none";
/** What may happen, each with the options of `how` that ask for it. */
const HAPPENINGS = [
  { words: "a message", title: "A message of the first thread is delivered to the second", options: [] },
  { words: "a hold", title: "The first thread has a word for the control block of the second", options: ["--hold"] },
  { words: "a loss", title: "A delete or a revoke of the first thread takes something of the second", options: ["--loss"] },
];

/** Whether a text is one of `never`. */
export const isNever = (text) => text.startsWith("never ");

/** Why it is not excluded, in words. */
function reasonOf({ from, fromPart, to, toPart, endpoints }) {
  const unbound = [[from, fromPart], [to, toPart]].filter(([, part]) => part === NO_PART).map(([thread]) => thread);
  if (unbound.length > 0) return `${unbound.join(" and ")} ${unbound.length === 1 ? "lies" : "lie"} in no part, where nothing is bound`;
  if (fromPart === toPart) return `both are threads of part ${fromPart}`;
  const named = endpoints.length === 1 ? `endpoint ${endpoints[0]} is` : `endpoints ${endpoints.join(", ")} are`;
  return `${named} open from part ${fromPart} to part ${toPart}`;
}

/** The answer in words. */
function wordsOf(told) {
  const { from, fromPart, to, toPart, answer } = told;
  if (answer === "possible") return `Not excluded: ${reasonOf(told)}. Whether some calls do it, this does not say.`;
  if (answer === "possible decided") return `It can happen: ${reasonOf(told)}, and sends of ${from} and receives of ${to} alone show it.`;
  return answer === "excluded by flow"
    ? `Whatever calls are made by threads that are not trusted: no message of ${from} is ever delivered to ${to}, but by an endpoint that --by `
      + `names, and no word of ${from} ever leads to the control block of ${to}. Of their parts this does not hold.`
    : `Whatever calls the threads of the parts make: no slot of part ${fromPart} ever holds a capability to an object of part `
      + `${toPart}, and no message of a thread of part ${fromPart} is ever delivered to a thread of part ${toPart}, but by an `
      + "endpoint that --by names.";
}

/** Buttons that have calls looked for, after which it has happened; `open` is told the options, or null where none are looked for. */
function drawHow(open) {
  if (!open) return element("p", {}, dim("With --messages no calls are looked for by which it happens."));
  return element("p", {}, "Look for calls by which it happens:",
    drawOpeners(HAPPENINGS.map(({ words, title, options }) => ({ words, title, open: () => open(options) }))));
}

/** Draws a text of `never` into an element; where it is not excluded, with buttons that have calls looked for (drawHow). */
export function drawNever(into, text, open) {
  const lines = text.split("\n");
  const [, from, fromPart, to, toPart, answer] = lines.map((line) => ANSWER.exec(line)).find(Boolean) ?? [];
  const endpoints = lines.map((line) => OPEN.exec(line)?.[1]).filter(Boolean);
  const told = answer === undefined ? null : element("p", { id: "verdict" },
    element("span", { class: answer.startsWith("excluded") ? "tag met" : "tag missed" }, answer), " ",
    wordsOf({ from, fromPart, to, toPart, answer, endpoints }));
  into.replaceChildren(heading("From one thread to another", "it is a bound on all calls that the threads of parts can make"),
    ...[told, answer?.startsWith("possible") && drawHow(open)].filter(Boolean),
    element("pre", { tabindex: "0", "aria-label": "What the program wrote" }, text));
}
