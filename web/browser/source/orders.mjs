// Every order of the clients' calls: for each call its answers, with the shortest order where one is not as expected, and
// each way to end stuck. An order that is told can be opened as a set-up that makes its calls.
import { button, code, element } from "../../page/source/element.mjs";
import { drawLine, drawRows } from "./report.mjs";
import { drawOpeners } from "./opener.mjs";

const ONE_CLIENT = /^explore \d+ \w+ clients 1 /u;
const CALL = /^(\d+) (client \d+: \d+ \w+)(?: \[(.*)\])?$/u;
// An order is `by` and the numbers of its calls, or `in order to N`: the first N calls in the order of the set-up.
const ANSWER = /^ {2}(\d+\.\d+) (.*?)(?: (\[not met\]) (by [\d ]+|in order to \d+))?$/u;
const STUCK = /^(stuck\.\d+) (by [\d ]+|in order to \d+)$/u;

/** The mark of a call: whether its expectation is met, in which orders. */
function drawMark(mark) {
  if (!mark) return null;
  const isMet = mark === "met" || mark === "met so far";
  return element("span", { class: isMet ? "tag met" : "tag missed" }, `${isMet ? "✓" : "✗"} ${mark}`);
}

function drawCall([, number, words, mark], { go }) {
  return button([element("span", { class: "number" }, number), code(words), " ", drawMark(mark)], () => go(Number(number)),
    { class: "line call", title: "To this call in the set-up" });
}

/** An order of calls, each with a way to it: of `by 1 3 2` all three, and of `in order to 3` the last one. */
function drawOrder(order, go) {
  const [first, ...rest] = order.split(" ");
  const numbers = first === "by" ? rest : rest.slice(-1);
  const calls = numbers.map((number) => [" ",
    button(number, () => go(Number(number)), { class: "link step", title: `To call ${number} in the set-up` })]);
  return first === "by" ? [" by the calls", calls] : [" in the set-up's order to call", calls];
}

/** A button that opens the order of a name as a set-up. */
const drawOpener = (name, open) => drawOpeners([{ words: "open this order",
  title: `A set-up that makes the calls of ${name} in this order`, open: () => open(name) }]);

function drawAnswer([, name, answer, missed, order], { go, open }) {
  return element("div", { class: missed ? "line answer missed-answer" : "line answer" },
    element("span", { class: "dim" }, name), " ", answer,
    missed ? [" ", element("span", { class: "tag missed" }, "not met"), drawOrder(order, go), " ", drawOpener(name, open)] : null);
}

function drawStuck([, name, order], { go, open }) {
  return element("div", { class: "line stuck" }, element("span", { class: "tag missed" }, name), drawOrder(order, go),
    "; then no client can go on: ", drawOpener(name, open));
}

const drawOneClient = () => element("p", {}, "One client makes all calls, so there is one order. There are more where calls name "
  + "other clients, as by client = 1; the example three clients has three.");

/** Draws a text of `explore` into an element; `go` is told the number of a call that is chosen, and `open` the name of an
    order that is to be opened as a set-up. */
export function drawOrders(into, text, told) {
  const drawn = [[CALL, drawCall], [ANSWER, drawAnswer], [STUCK, drawStuck]];
  const rows = text.split("\n").slice(0, -1).map((line) => () => {
    for (const [form, draw] of drawn) {
      const found = form.exec(line);
      if (found) return draw(found, told);
    }
    return drawLine(line);
  });
  drawRows(into, ONE_CLIENT.test(text) ? [drawOneClient, ...rows] : rows);
}
