// What is said of an answer of the program: its status, in words, and what it took.

const MEANINGS = [
  "done", "an expectation is not met", "the set-up is refused",
  "the program could not read, write, start a thread or get memory", "the command line is refused",
];
const EXPECTED = /(?:^|\n)expected (\d+) of (\d+)\n$/;

/** How many expectations are met, in words, where a text ends with them. */
function expectationsOf(text) {
  const [, met, all] = EXPECTED.exec(text) ?? [];
  if (all === undefined) return null;
  return all === "0" ? "no expectations" : `${met} of ${all} expectations met`;
}

/** What is said of an answer whose output is a text: `{ status, isGood, ended, took }`; `missed` says what status 1 means, where it
    is not as for a report. */
export function wordsOf({ status, trap, milliseconds, memory }, text, missed = MEANINGS[1]) {
  const took = `${milliseconds.toFixed(0)} ms, ${(memory / (1 << 20)).toFixed(0)} MiB`;
  if (trap) {
    const ended = `${trap}. The program ran out of stack, or the browser out of memory. The set-up is still here.`;
    return { status: "ended by the browser", isGood: false, ended, took };
  }
  const said = [status === 0 ? null : status === 1 ? missed : MEANINGS[status], expectationsOf(text)].filter(Boolean).join(", ");
  return { status: `status ${status}`, isGood: status === 0, ended: said || MEANINGS[0], took };
}
