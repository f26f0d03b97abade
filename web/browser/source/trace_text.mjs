// A trace as a text.

/** The words that ask for the trace of which the steps are drawn. */
export const TRACED = ["trace", "--ways"];

/** A trace that ends before a call. */
export function traceBefore(trace, number) {
  const lines = trace.split("\n");
  const end = lines.findIndex((line) => line.startsWith(`${number} `));
  const [head, ...rest] = lines.slice(0, end < 0 ? lines.length - 2 : end);
  return `${[head.replace(/calls \d+$/u, `calls ${number - 1}`), ...rest, "expected 0 of 0"].join("\n")}\n`;
}
