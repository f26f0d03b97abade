// An exercise with a goal as a text: before its last call a line "# your calls" stands, behind which its reader's calls go; the goal is
// what the last call is to be answered. Each other part of the text stays as it is.
import { YOUR_CALLS, callIn, firstCommentAbove, headOf } from "./exercise_text.mjs";
import { lastLineOf, placesOf } from "./places.mjs";

const QUESTION = /^\?/u;
/** What is told at the end of a file that was handed in. */
const HANDED_IN = /\n*^# answers: (.*)\n*$/mu;
const isBlank = (line) => /^\s*$/u.test(line);
const isNoCall = (line) => /^\s*(?:#|$)/u.test(line);

/** Where the reader's calls stand in lines: the first line, the line behind the last one, and the entry of the goal; or null where there
    is no such place, or no goal. */
function placeIn(lines, text) {
  const at = lines.findIndex((line) => YOUR_CALLS.test(line));
  const { call } = placesOf(text);
  const goal = call.at(-1);
  const expected = goal?.texts.get("expect")?.text ?? "?";
  if (at < 0 || goal === undefined || goal.line <= at || QUESTION.test(expected)) return null;
  let end = firstCommentAbove(lines, goal.line);
  while (end > at + 1 && isBlank(lines[end - 1])) end -= 1;
  return { first: at + 1, end, call, expected };
}

/** The exercise with a goal in a set-up: `{ title, task, given, goal, threads, isList, mine, bare, handedIn }`, or null where it has none.
    `given` are the calls that are made already, `threads` names those that may make others, or is null; `mine` is the text of the
    reader's calls that it has in it already, and `bare` the text without these. */
export function goalOf(handed) {
  if (!handed.split("\n").some((line) => YOUR_CALLS.test(line))) return null;
  const handedIn = HANDED_IN.exec(handed)?.[1] ?? "";
  const text = handed.replace(HANDED_IN, "\n");
  const lines = text.split("\n");
  const place = placeIn(lines, text);
  if (place === null) return null;
  const { first, end, call, expected } = place;
  const given = call.filter(({ line }) => line < first).map((entry, at) => callIn(lines, entry, at + 1));
  const mine = lines.slice(first, end).map((line) => line.replace(/^ {2}/u, "")).join("\n").trim();
  const bare = lines.toSpliced(first, end - first).join("\n");
  const [, names] = YOUR_CALLS.exec(lines[first - 1]);
  const isList = !/^\s*\[\[/u.test(lines[call.at(-1).line]);
  return { ...headOf(lines), given, goal: { ...callIn(lines, call.at(-1), 0), expected }, threads: names?.split(",").map((it) => it.trim()) ?? null,
    isList, mine, bare, handedIn };
}

/** A line of typed calls as it stands in the text: in a list each entry has a comma behind it. */
const asLine = (line, isList) => (line.trim() === "" ? "" : isList ? `  ${line.trimEnd().replace(/\}\s*(#.*)?$/u, "}, $1").trimEnd()}` : line);

/** The text of an exercise with calls of its reader; comments behind the last of them are left out, since there the goal's own stand. */
export function withMine({ bare, isList }, mine) {
  const lines = bare.split("\n");
  const at = 1 + lines.findIndex((line) => YOUR_CALLS.test(line));
  const typed = mine.split("\n");
  return lines.toSpliced(at, 0, ...typed.slice(0, 1 + typed.findLastIndex((line) => !isNoCall(line))).map((line) => asLine(line, isList))).join("\n");
}

/** The lines, in the text of the reader's calls, of each of these calls: its first and its last. */
export function linesOfMine(goal, mine) {
  const text = withMine(goal, mine);
  const lines = text.split("\n");
  const first = 1 + lines.findIndex((line) => YOUR_CALLS.test(line));
  return placesOf(text).call.slice(goal.given.length, -1).map((entry) => [entry.line - first, lastLineOf(entry) - first]);
}

/** A call as its reader would write it. */
export const asTyped = (pairs, isList) => {
  const told = pairs.map(([key, value]) => `${key} = ${value}`);
  return isList ? [`{ ${told.join(", ")} },`] : ["[[call]]", ...told];
};

/** The text of the reader's calls with one more behind the first few of them. */
export function withCall(goal, mine, count, pairs) {
  const lines = mine.trim() === "" ? [] : mine.trimEnd().split("\n");
  const at = count > 0 ? (linesOfMine(goal, mine)[count - 1]?.[1] ?? lines.length - 1) + 1 : 0;
  return lines.toSpliced(at, 0, ...asTyped(pairs, goal.isList)).join("\n");
}

/** The text of the reader's calls without one of them. */
export function withoutCall(goal, mine, at) {
  const [first, last] = linesOfMine(goal, mine)[at];
  return mine.trimEnd().split("\n").toSpliced(first, last - first + 1).join("\n").trim();
}

/** Whether what was typed is calls alone: that the text with them has as many calls more, and nothing else of its own. */
export function isCallsAlone(goal, mine) {
  const [before, after] = [goal.bare, withMine(goal, mine)].map((text) => placesOf(text));
  const keys = ({ top }) => [...top.keys.keys()].join();
  return before.untyped.length === after.untyped.length && keys(before) === keys(after) && after.call.at(-1)?.texts.get("expect")?.text === goal.goal.expected;
}
