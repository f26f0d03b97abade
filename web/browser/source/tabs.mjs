// What the program can do, each in a tab. A new subcommand is one entry of TABS; where its text is to be shown in a way
// of its own, `show` says how.
import { button, dim, element } from "../../page/source/element.mjs";
import { drawAudit } from "./audit.mjs";
import { drawEver, threadsTold } from "./ever.mjs";
import { drawNever, isNever } from "./never.mjs";
import { drawHeld } from "./policy.mjs";
import { drawOrders } from "./orders.mjs";
import { drawReport, threadsReported } from "./report.mjs";
import { drawWhy } from "./why.mjs";
import { namesOf, wordBitsOf } from "./places.mjs";
import { TRACED } from "./trace_text.mjs";

/** The text as it is. */
function showText(page, panel, text) {
  panel.replaceChildren(element("pre", { tabindex: "0", "aria-label": "What the program wrote" }, text));
}

function showReport(page, panel, text) {
  drawReport(panel, text, (number) => page.goToCall(number), { reasons: page.reasons, names: namesOf(page.editor.text) });
}

function showReasons(page, panel, text) {
  drawWhy(panel, text, (number) => page.goToCall(number), wordBitsOf(page.editor.text));
}

function showAudit(page, panel, text) {
  drawAudit(panel, text, { choose: (slot) => page.give(AUDIT, "slot", slot), save: (...drawing) => page.saveDrawing(...drawing) });
}

/** Opens the set-up that `how` or `policy --how` writes, at its last call. */
const openHow = (page, words, ending) => page.openWitness(words, ending, STEPS,
  `The last call shows that it happens. ${page.commandLine(words)} wrote this set-up.`);

/** Has calls looked for by which it happens between the two threads of `never`. For `--hold` and `--loss` there is no `--by`. */
function openHowOf(page, happening) {
  const options = EVER.options.filter(({ name }) => happening.length === 0 || name !== "by");
  const [, ...words] = page.options.words({ ...EVER, options });
  return openHow(page, ["how", ...words, ...happening], "how");
}

/** The parts of a layout, where each thread that is told gets a box to tick; or the answer whether two are kept apart. */
function showEver(page, panel, text) {
  if (isNever(text)) {
    if (page.options.threads.length === 0) page.options.offer(EVER, threadsReported(page.reported, namesOf(page.editor.text)));
    drawNever(panel, text, page.options.value(EVER, "messages") ? null : (options) => openHowOf(page, options));
    return;
  }
  page.options.offer(EVER, threadsTold(text));
  drawEver(panel, text, (...drawing) => page.saveDrawing(...drawing));
}

function showOrders(page, panel, text) {
  const open = (order) => page.openWitness([...page.words, "--witness", order], order, REPORT,
    `This set-up makes the calls of ${page.name} in the order ${order}.`);
  drawOrders(panel, text, { go: (number) => page.goToCall(number), open });
}

/** The layout held to a policy, where calls are looked for by which a breach happens. */
function showHeld(page, panel, text) {
  drawHeld(panel, text, { open: (number) => openHow(page, [...page.words, "--how", String(number)], `how.${number}`),
    go: (number) => page.goToCall(number) });
}

/** The page of a trace, in a frame; another set-up is shown from its boot on, or from the call that its address names. */
function showSteps(page, panel, text) {
  page.branch.close();
  page.steps.show(text, page.title, page.firstCall);
  page.firstCall = undefined;
  if (page.steps.frame.parentElement !== panel) panel.replaceChildren(page.steps.frame);
}

/** A set-up that the program wrote, which can take the place of the one in the editor. */
function showSetup(page, panel, text) {
  const take = button("edit this set-up", () => page.open(text, page.name));
  panel.replaceChildren(element("p", {}, take, " ", dim("it takes the place of the one in the editor")),
    element("pre", { tabindex: "0", "aria-label": "The set-up in format 2" }, text));
}

const AFTER = { name: "after", about: "How many calls are made; all without it", least: "all calls" };

export const REPORT = { name: "report", words: ["check"], about: "What each call is answered, and the state at the end", show: showReport };
export const STEPS = { name: "steps", words: TRACED, about: "What each call changes, step by step", show: showSteps };
const AUDIT = {
  name: "audit", words: ["audit"], about: "Who reaches what, who can send to whom, and what each revoke would destroy",
  options: [AFTER, { name: "slot", about: "The address of a slot: what a revoke of it would change", least: "none" }],
  show: showAudit,
};
const EVER = {
  name: "ever", words: ["ever"], about: "What each thread can never get, whatever calls are made",
  missed: "it is not excluded",
  options: [AFTER, { name: "without", about: "Threads that are trusted to make no more calls", ticks: true },
    { name: "messages", about: "Threads that are trusted to go on to send and receive, and to do nothing else", ticks: true },
    { name: "never", about: "Two threads: is the part of the first kept from the part of the second?", between: ["can this thread", "ever reach this one?"],
      command: "never" },
    { name: "by", about: "Endpoints that are allowed between these two", least: "none", inputmode: "text" }],
  show: showEver,
};

/** The layout held to the policy in the second editor. */
export const POLICY = {
  name: "policy", words: ["policy"], about: "Whether the layout keeps to a policy, whatever calls are made",
  missed: "the policy is broken", options: [AFTER], hasPolicy: true, show: showHeld,
};

/** A tab: its name, the program's words, what the tab is for, and how to show what the program writes. It may have options
    of its command line (options.mjs), and say what status 1 means. An option may have a command of its own, which is asked in place of
    the tab's words where it is given: its value stands behind it. A tab without `show` says why the program cannot do it
    in a browser. A rare one is in sight where it is chosen, or behind "more". The words of one with a
    policy end with the name of its file. */
export const TABS = [
  REPORT,
  STEPS,
  { name: "why", words: ["why"], about: "Why calls are refused", show: showReasons,
    options: [{ name: "call", about: "The number of a call: the reason of that call alone", least: "all refused" }] },
  AUDIT,
  EVER,
  POLICY,
  { name: "tree", words: ["tree"], about: "Each slot below the one that it is derived from", show: showText,
    options: [AFTER, { name: "dot", about: "As a graph in DOT, the language of Graphviz, to be saved and drawn", isAlone: true }] },
  { name: "orders", words: ["explore"], about: "Every order of the clients' calls: what can happen, and what cannot",
    missed: "an expectation is not met in some order, an order ends stuck, or not all orders were made",
    options: [{ name: "first", about: "So many calls are made before the clients begin", least: "0" },
      { name: "states", about: "The most states that are kept", least: "100000" }], show: showOrders },
  { name: "trace", words: ["trace"], about: "The steps as text", isRare: true, show: showText,
    options: [{ name: "ways", about: "With the way of each word of a call, in bits", isAlone: true }] },
  { name: "migrate", words: ["migrate"], about: "A set-up of format 1 as one of format 2", isRare: true, show: showSetup },
  { name: "threads", words: ["threads"], about: "The clients of a set-up side by side", isRare: true,
    told: "A browser gives this program no threads, so clients that run side by side cannot be shown here. The program "
      + "on a computer of your own runs them; every order that they can come in is in the tab orders:" },
];
