// An exercise as a text: a set-up in which some calls expect "?". The words are its comments: those at the head are the task,
// those right above a call say what it does, and a line that begins with #> says why it is answered so.
import { lastLineOf, placesOf } from "./places.mjs";

const TITLE = /^exercise:\s*(.*)$/u;
/** A line at the head by which the calls are asked one at a time. */
const IN_TURN = "in turn";
/** A line at the head by which it is asked too how the bits of each index are read. */
const IN_BITS = "in bits";
const MAY_ASK = /["']\?/u;
const QUESTION = /^\?(?: (from|to|badge|label|words))?$/u;
const PAIR = /(\w+)\s*=\s*("[^"]*"|'[^']*'|\[[^\]]*\]|[^\s,}]+)/gu;
const BECAUSE = "#>";
/** The line behind which the reader's calls of an exercise with a goal stand; it may name their threads. */
export const YOUR_CALLS = /^\s*# your calls(?: of (.+?))?\s*$/u;
/** The parts of a delivered answer, in their order. */
export const PARTS = ["endpoint", "from", "to", "badge", "label", "words"];

const isComment = (line) => /^\s*#/u.test(line);
const bareComment = (line) => line.replace(/^\s*#>?\s?/u, "").trimEnd();

/** The first line of the comments right above a line. */
export function firstCommentAbove(lines, line) {
  let first = line;
  while (first > 0 && isComment(lines[first - 1]) && !YOUR_CALLS.test(lines[first - 1])) first -= 1;
  return first;
}

/** The comments right above a line. */
const commentsAbove = (lines, line) => lines.slice(firstCommentAbove(lines, line), line).map((it) => it.trim());

/** The words above a call: what it does, without a number in front, and why it is answered so. */
function wordsAbove(lines, line) {
  const comments = commentsAbove(lines, line);
  const join = (some) => some.map(bareComment).join(" ").trim();
  const isReason = (it) => it.startsWith(BECAUSE);
  return { words: join(comments.filter((it) => !isReason(it))).replace(/^\d+\.\s+/u, ""), because: join(comments.filter(isReason)) };
}

/** What the comments at the head tell: the title, the paragraphs of the task, and whether the calls are asked in turn, and their indices
    in bits. */
export function headOf(lines) {
  const end = lines.findIndex((it) => !isComment(it));
  const head = lines.slice(0, end < 0 ? lines.length : end).map(bareComment);
  const [, title = ""] = TITLE.exec(head[0] ?? "") ?? [];
  const told = head.slice(title ? 1 : 0).filter((it) => it !== IN_TURN && it !== IN_BITS);
  const task = told.join("\n").split(/\n\s*\n/u).map((it) => it.replace(/\n/gu, " ").trim()).filter(Boolean);
  return { title, task, inTurn: head.includes(IN_TURN), inBits: head.includes(IN_BITS) };
}

/** A call's keys and values, in the order in which they are written; but for what is expected of it. */
function pairsOf(lines, entry) {
  const text = lines.slice(entry.line, lastLineOf(entry) + 1).filter((it) => !isComment(it)).join("\n");
  const pairs = [...text.matchAll(PAIR)].map(([, key, value]) => [key, value.replace(/^["']|["']$/gu, "")]);
  return new Map(pairs.filter(([key]) => key !== "expect"));
}

/** A call of a set-up: its number, what its comments say, and its keys. */
export const callIn = (lines, entry, number) => ({ number, ...wordsAbove(lines, entry.line), pairs: pairsOf(lines, entry) });

/** What an expectation asks for: null where it is no question, or the last part of a delivered answer that is asked for. */
function askedBy(expectation) {
  const found = QUESTION.exec(expectation);
  return found ? { last: found[1] ?? null } : null;
}

/** The exercise in a set-up: `{ title, task, inTurn, inBits, calls }`, or null where no call asks. Each call has its `number`, `words`,
    `because`, `pairs` and `asked`. */
export function exerciseOf(text) {
  // Most set-ups ask nothing, and one of many calls is not read for that.
  if (!MAY_ASK.test(text)) return null;
  const lines = text.split("\n");
  const calls = placesOf(text).call.map((entry, at) => ({
    ...callIn(lines, entry, at + 1), asked: askedBy(entry.texts.get("expect")?.text ?? ""),
  }));
  return calls.some(({ asked }) => asked) ? { ...headOf(lines), calls } : null;
}

/** The text with other expectations: `given` has them by the numbers of their calls. */
export function withExpectations(text, given) {
  const places = placesOf(text).call.map(({ texts }, at) => ({ ...texts.get("expect"), expectation: given.get(at + 1) }))
    .filter(({ start, expectation }) => start !== undefined && expectation !== undefined);
  return places.reverse().reduce((told, { start, end, expectation }) =>
    `${told.slice(0, start)}${JSON.stringify(expectation)}${told.slice(end)}`, text);
}

/** How many parts of a delivery an expectation tells. */
const partsTold = (expectation) => PARTS.slice(1)
  .filter((part) => expectation.startsWith("delivered") && `${expectation} `.includes(` ${part} `)).length;

/** What the calls expect, by their numbers. */
const expectationsOf = (text) => placesOf(text).call.map(({ texts }, at) => [at + 1, texts.get("expect")?.text])
  .filter(([, it]) => it !== undefined);

/** Words by which a comment may tell a reply. */
const TELLING = {
  done: /\bdone\b|success|succeed|works?\b/iu, waiting: /\bwait|block/iu, delivered: /deliver|receiv|arriv|\bgets?\b|\btakes?\b/iu,
  dropped: /\bdrop|\blost\b/iu, empty: /\bempty|\bnothing\b|\bnobody\b|no one/iu,
  refused: /refus|\bfail|\bfull\b|\bcannot\b|\bnot\b|\bno\b|\btoo\b|\bwithout\b|\bempty|\bmissing|\bmismatch|\bwrong/iu,
};

/** The comments above the calls that expect something, `{ number, words, isTelling }`: first those that have a word of the reply, or a
    number of it. */
export function wordsThatTell(text) {
  const lines = text.split("\n");
  const { call } = placesOf(text);
  const told = expectationsOf(text).map(([number, expectation]) => {
    const { words } = wordsAbove(lines, call[number - 1].line);
    const numbers = (expectation.match(/\d+/gu) ?? []).some((it) => new RegExp(`\\b${it}\\b`, "u").test(words));
    return { number, words, isTelling: numbers || (TELLING[expectation.split(" ")[0]]?.test(words) ?? false) };
  }).filter(({ words }) => words !== "");
  return [...told.filter(({ isTelling }) => isTelling), ...told.filter(({ isTelling }) => !isTelling)];
}

/** The text with the comments above some calls as reasons, which are hidden until the answers are shown. */
function withReasons(text, numbers) {
  const lines = text.split("\n");
  for (const { line } of placesOf(text).call.filter((_, at) => numbers.includes(at + 1))) {
    const above = commentsAbove(lines, line).length;
    for (let at = line - above; at < line; at += 1) lines[at] = lines[at].replace(/^(\s*)#>?/u, `$1${BECAUSE}`);
  }
  return lines.join("\n");
}

/** The set-up with its expectations as questions. Each asks as far as the one that tells most, so that the questions do not
    tell which calls deliver. The comments above the calls that are `hidden` are shown with the answers alone. */
export function asExercise(text, hidden = []) {
  const given = expectationsOf(text);
  const most = Math.max(0, ...given.map(([, it]) => partsTold(it)));
  const question = most > 0 ? `? ${PARTS[most]}` : "?";
  return withReasons(withExpectations(text, new Map(given.map(([number]) => [number, question]))), hidden);
}
