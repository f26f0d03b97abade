// Who can send to whom, by the lines of an audit that begin with `channel`.
import { element } from "./element.mjs";
import { drawWires } from "./wires.mjs";

const CHANNEL = /^channel (\d+(?: @\S+)?) (\d+) -> (\d+) badge (\d+) rights (\S+) -> (?:none|(\d+(?: @\S+)?) (\d+))$/u;
const UNWRITTEN = /^channel none -> (\d+) -> (\d+(?: @\S+)?) (\d+)$/u;
/** More ways than these are not drawn. */
const MOST_WAYS = 200;

/** The way that a line tells, between two threads or from or to none, or null where it tells none. */
export function wayOf(line) {
  const unwritten = UNWRITTEN.exec(line);
  if (unwritten) return { from: null, endpoint: unwritten[1], by: "", to: unwritten[2] };
  const channel = CHANNEL.exec(line);
  if (!channel) return null;
  const [, from, word, endpoint, badge, rights, to = null] = channel;
  return { from, endpoint, by: `${endpoint} badge ${badge} ${rights} by ${word}`, to };
}

/** The threads that one end of a way stands for: the thread and those that are told as it, or none. */
const threadsAt = (end, spaces) => (end === null ? [null] : [end, ...(spaces.get(end) ?? [])]);

/** How many ways between two threads some ways stand for. `spaces` has the threads that are told as another one, by that one. */
export function countWays(ways, spaces) {
  const counts = ways.map(({ from, to }) => threadsAt(from, spaces).length * (threadsAt(to, spaces).length - (from === to ? 1 : 0)));
  return counts.reduce((sum, count) => sum + count, 0);
}

/** Those ways. */
export function waysBetween(ways, spaces) {
  const pairs = ways.flatMap((way) => threadsAt(way.from, spaces).flatMap((from) =>
    threadsAt(way.to, spaces).map((to) => ({ ...way, from, to }))));
  return pairs.filter(({ from, to }) => from !== to);
}

/** Draws the ways between two threads that some ways stand for, each thread a box; null where there are none, or too many. */
export function drawChannels(told, spaces, label) {
  if (countWays(told, spaces) > MOST_WAYS) return null;
  const ways = waysBetween(told, spaces);
  const ends = new Set(ways.flatMap(({ from, to }) => [from, to]).filter((end) => end !== null));
  const inOrder = [...ends].sort((one, other) => parseInt(one, 10) - parseInt(other, 10));
  const drawing = drawWires(inOrder.map((thread) => ({ id: thread, title: thread, lines: [] })), ways, label);
  return drawing && element("div", { class: "drawing", tabindex: "0", role: "region", "aria-label": "Channels" }, drawing);
}
