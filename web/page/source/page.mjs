// The page: it reads the trace that stands in it, and draws the state behind the step that one chooses.
import { CallList, hasText, isMissed, nextStep } from "./calls.mjs";
import { Player } from "./player.mjs";
import { Views } from "./views.mjs";
import { firstMisfit } from "./state.mjs";
import { drawChanges, drawSentence } from "./summary.mjs";
import { drawForest, drawForestAsItWas, showChange } from "./forest.mjs";
import { drawMemory } from "./memory.mjs";
import { drawReachTable, drawWays } from "./reach_table.mjs";
import { drawSpaces } from "./spaces.mjs";
import { drawThreadsAndEndpoints } from "./threads.mjs";
import { askParent, listenToFiles, listenToParent, saveFile, tellParent } from "./files.mjs";
import { listenToKeys } from "./keys.mjs";
import { readAudits } from "./audits.mjs";
import { drawSaver } from "./element.mjs";
import { pictureOf } from "./picture.mjs";
import { readTrace } from "./trace.mjs";
import { wasAskedFor } from "./calls_to_ask.mjs";
import { redraw } from "./redraw.mjs";
import { WhatIf } from "./what_if.mjs";
import { wordsOfSteps } from "./words.mjs";

const byId = (id) => document.getElementById(id);
const TITLE = "sel4sim run";
/** The parts that are shown alone, one after another. */
const ALONE = ["forest", "spaces", "memory"];

const WITHOUT_WAYS = "This trace does not say which slots the words of a call lead to: it was written without --ways, or by a program "
  + "that does not have this option.";

/** Whether a call looked words up, and its lines do not say how. The calls of threads that are not ready look none up. */
const lacksWays = ({ number, reply, ways }) => number > 0 && ways.length === 0 && !/^refused 10[01]$/u.test(reply);

/** The trace without the steps that do not fit the state before them, and what is to be said of it. */
function fitting(trace) {
  const misfit = firstMisfit(trace.steps);
  if (misfit >= 0) {
    const notice = `This trace does not fit itself at call ${misfit}: what it takes away is not there, or what it adds `
      + "is there already. So it was altered. The calls before it are shown.";
    return [{ ...trace, steps: trace.steps.slice(0, misfit) }, notice];
  }
  if (!trace.complete) return [trace, "This trace was cut off: its last lines are missing."];
  return [trace, trace.steps.some(lacksWays) ? WITHOUT_WAYS : ""];
}

function expectedWords({ expected }) {
  if (!expected) return "not finished";
  return expected.of === 0 ? "no expectations" : `expected ${expected.met} of ${expected.of}`;
}

/** A page that steps through one run at a time. */
class Page {
  constructor() {
    this.calls = new CallList(byId("calls"), byId("list"), (number) => this.show(number));
    this.seer = null;
    this.views = null;
    this.ownViews = null;
    this.number = 0;
    this.trace = { steps: [] };
    this.player = new Player(byId("play"), this);
    this.whatIf = new WhatIf(byId("what-if"), { ask: (pairs) => askParent("call", { pairs, number: this.number }), keep: () => askParent("keep"),
      takeBack: () => askParent("take back", { number: this.number }) });
  }

  /** Whether the page around this one runs calls that are asked for. */
  get canAsk() {
    return !byId("ask").hidden;
  }

  get last() {
    return this.trace.steps.length - 1;
  }

  /** Reads a trace, and the audits of its states where they are there, and shows one of its steps; a text that is no trace is
      refused with its fault. The name is that of the set-up, or of the file. */
  open(text, number, name, audits = "") {
    try {
      const [trace, notice] = fitting(readTrace(text));
      if (trace.steps.length === 0) throw new Error(notice);
      this.trace = { ...trace, told: wordsOfSteps(trace), audits: readAudits(audits), branch: this.branchFrom, yours: this.yours };
      this.views = new Views(this.trace);
      this.say(notice);
    } catch (error) {
      this.say(`This is not a trace of sel4sim. ${error.message}`);
      return;
    }
    document.body.dataset.shows = "run";
    document.title = name ? `${name} · ${TITLE}` : TITLE;
    byId("name").textContent = name || TITLE;
    byId("name").title = document.title;
    this.drawFrame();
    this.show(number);
  }

  /** Opens what the page around this one tells; calls may be asked for, and those behind `branch` were, while `own` is the trace of the
      set-up as it is. In an exercise with a goal they are those of its reader, `yours`. */
  openTold({ trace, number, name, branch, canAsk, canKeep, yours, own }) {
    byId("ask").hidden = !canAsk;
    byId("ask").textContent = yours ? "your call" : "what if";
    Object.assign(this, { branchFrom: branch, yours, ownViews: own === undefined ? null : new Views(readTrace(own)) });
    this.whatIf.take(yours, canAsk, canKeep);
    this.open(trace, number ?? this.number, name);
  }

  /** Says what is wrong, or nothing. */
  say(notice) {
    byId("notice").textContent = notice;
  }

  /** What does not change from step to step. */
  drawFrame() {
    const missed = this.trace.steps.filter(isMissed).length;
    byId("range").max = this.last;
    byId("expected").textContent = expectedWords(this.trace);
    // Of a run with calls that were asked for nothing is expected.
    byId("expected").hidden = this.trace.branch !== undefined;
    byId("expected").className = missed > 0 || !this.trace.complete ? "tag missed" : "tag met";
    byId("next-missed").hidden = missed === 0;
  }

  /** Shows the state behind a step; a number out of bounds means the nearest one. */
  show(wanted) {
    if (!this.views) return;
    const number = Math.max(0, Math.min(this.last, Math.trunc(wanted) || 0));
    this.draw(number, this.views.of(number));
  }

  /** Whether a step is asked for whose effect is not shown yet. */
  get isAsked() {
    return this.view?.isAsked ?? false;
  }

  /** Whether a step on shows the call alone first. */
  get isHiding() {
    return document.body.hasAttribute("data-hiding");
  }

  /** Goes on to a step: to the effect of the one that is asked for, or else to another one, first to its call alone
      where effects are hidden. */
  goOn(wanted) {
    if (this.isAsked) this.show(this.number);
    else if (this.isHiding && wanted > 0 && wanted <= this.last) this.draw(wanted, this.views.asked(wanted));
    else this.show(wanted);
  }

  /** Hides the effects of calls until they are asked for, or shows them again. */
  toggleHiding() {
    if (!this.view) return;
    document.body.toggleAttribute("data-hiding");
    this.show(this.number);
  }

  /** The part that is shown alone in large type, or undefined. */
  get alone() {
    return document.body.dataset.alone;
  }

  /** Shows the next part alone in large type: the forest, the capability spaces, the memory, and then the whole page again. */
  goRound() {
    this.showAlone(ALONE[ALONE.indexOf(this.alone) + 1]);
  }

  /** Shows a part alone, or the whole page where it is undefined. */
  showAlone(part) {
    if (!this.view) return;
    if (part) document.body.dataset.alone = part;
    else delete document.body.dataset.alone;
    this.draw(this.number, this.view);
  }

  /** Shows the list of calls and the other controls in a narrow window, or folds them away. */
  toggleMore() {
    byId("more").setAttribute("aria-expanded", String(document.body.toggleAttribute("data-more")));
    this.draw(this.number, this.view);
  }

  /** Draws a view of a step. */
  draw(number, view) {
    Object.assign(this, { view, number });
    this.put("said", drawSentence(view));
    this.put("changed", drawChanges(view));
    this.drawForest(view);
    this.drawAsItWas(view);
    this.put("memory", [drawMemory(view), this.drawSaver("memory")]);
    this.put("threads", [drawThreadsAndEndpoints(view), this.drawSaver("threads")]);
    this.put("reach", drawReachTable(view));
    this.put("channels", drawWays(view));
    this.drawSpaces();
    this.drawLines();
    this.drawPosition(number);
    this.whatIf.show(view);
    this.calls.show(this.trace, number, this.isHiding ? number - Number(view.isAsked) : this.last);
    tellParent(number);
  }

  /** The forest keeps its place from step to step, but for what is not in sight of that which changed. */
  drawForest(view) {
    this.put("forest", [drawForest(view), this.drawSaver("forest")]);
    showChange(document.querySelector("#forest .forest-scroll"));
  }

  /** Beside what a call does that was asked for stands what the set-up's own calls did, as many of them as it has. */
  drawAsItWas({ step: { number } }) {
    const { ownViews } = this;
    const isBeside = ownViews !== null && wasAskedFor(this.trace, number);
    byId("was").hidden = !isBeside;
    if (!isBeside) return;
    this.put("was", drawForestAsItWas(ownViews.of(Math.min(number, ownViews.trace.steps.length - 1))));
    showChange(document.querySelector("#was .forest-scroll"));
  }

  /** Behind which call the state that is shown stands. */
  get behindWhat() {
    return this.number === 0 ? "after boot" : `after call ${this.number}`;
  }

  /** A button that saves a part of the page as a picture. */
  drawSaver(id) {
    return drawSaver(`Save this picture: ${id}, as SVG`, () => {
      const name = byId("name").textContent;
      saveFile(pictureOf(byId(id), `${byId(id).getAttribute("aria-label")} ${this.behindWhat} of ${name}`), `${name}.call_${this.number}.${id}.svg`);
    });
  }

  /** Draws a part of the page anew, where it differs. */
  put(id, children) {
    redraw(byId(id), children.flat(Infinity).filter((child) => child !== null && child !== ""));
  }

  drawSpaces() {
    const spaces = drawSpaces(this.view, this.seer, (thread) => {
      this.seer = thread;
      this.drawSpaces();
      byId("seer").focus();
    });
    this.put("spaces", [spaces, this.drawSaver("spaces")]);
  }

  /** The step as the trace has it, and the state as lines, where these are opened. */
  drawLines() {
    const { step, state, isAsked } = this.view;
    const effect = [...step.ways.map((way) => way.line), ...step.reasons.map((reason) => `  ${reason}`), ...step.changes.map(({ sign, line }) => `  ${sign} ${line.text}`)];
    const line = isAsked ? `${step.number} ${step.thread} ${step.operation}` : step.line;
    byId("step-text").textContent = [line, step.with, ...(isAsked ? [] : effect)].filter(Boolean).join("\n");
    byId("state-text").textContent = byId("state-lines").open ? state.texts().join("\n") : "";
  }

  drawPosition(number) {
    const { step } = this.view;
    byId("position").textContent = number === 0 ? `boot, ${this.last} calls` : `call ${number} of ${this.last}`;
    byId("range").value = number;
    byId("range").setAttribute("aria-valuetext", number === 0 ? "boot" : `call ${number}, ${step.operation}`);
    for (const id of ["first", "back"]) byId(id).disabled = number === 0;
    for (const id of ["on", "last"]) byId(id).disabled = number === this.last && !this.isAsked;
    try {
      history.replaceState(null, "", `#${number}`);
    } catch {
      // Some browsers allow no change of a file's address; the page does without.
    }
  }

  /** Shows the next step that a test holds for, if there is one. */
  showNext(holds) {
    const number = nextStep(this.trace.steps, this.number, 1, holds);
    if (number >= 0) this.goOn(number);
  }

  /** Shows the next step with a text in its lines or in what the page writes of it, or says that there is none. */
  find(text, direction) {
    const { steps, told } = this.trace;
    const number = nextStep(steps, this.number, direction, (step) => hasText(step, told[step.number], text));
    byId("found").textContent = number < 0 ? "not found" : "";
    if (number >= 0) this.show(number);
  }
}

/** Outlines an object wherever it is named while the pointer is over it. */
function listenToPointer() {
  let shown = "";
  document.addEventListener("mouseover", ({ target }) => {
    const object = target.closest("[data-object]")?.dataset.object ?? "";
    if (object === shown) return;
    shown = object;
    for (const named of document.querySelectorAll("[data-object]")) {
      named.classList.toggle("outlined", object !== "" && named.dataset.object === object);
    }
  });
}

/** While a call is asked for, a slot or a thread that is pressed in a drawing is taken into it. */
function listenToPresses(page) {
  byId("main").addEventListener("click", ({ target }) => {
    if (!page.whatIf.isOpen || target.closest("button, select, input, summary, #what-if, #was")) return;
    const [slot, thread] = [target.closest("[data-slot]")?.dataset.slot, target.closest("[data-thread]")?.dataset.thread];
    if (slot !== undefined) page.whatIf.press(Number(slot));
    else if (thread !== undefined) page.whatIf.pressThread(Number(thread));
  });
  byId("ask").addEventListener("click", () => page.whatIf.toggle());
}

function listenToControls(page) {
  byId("first").addEventListener("click", () => page.show(0));
  byId("back").addEventListener("click", () => page.show(page.number - 1));
  byId("on").addEventListener("click", () => page.goOn(page.number + 1));
  byId("last").addEventListener("click", () => page.show(page.last));
  byId("range").addEventListener("input", ({ target }) => page.show(Number(target.value)));
  byId("next-missed").addEventListener("click", () => page.showNext(isMissed));
  byId("play").addEventListener("click", () => page.player.toggle());
  byId("more").addEventListener("click", () => page.toggleMore());
  byId("state-lines").addEventListener("toggle", () => page.drawLines());
  window.addEventListener("resize", () => document.querySelectorAll(".forest-scroll").forEach(showChange));
  window.addEventListener("hashchange", () => page.show(Number(location.hash.slice(1))));
  // The signs stand on a print, and otherwise beside the keys.
  const legend = document.querySelector("#what .legend");
  byId("signs").append(legend.cloneNode(true));
  document.querySelector(".foot").append(...legend.cloneNode(true).children);
  byId("show-keys").addEventListener("click", () => byId("keys").showModal());
  byId("close-keys").addEventListener("click", () => byId("keys").close());
  listenToKeys(page, { list: byId("list"), main: byId("main"), find: byId("find"), keys: byId("keys") });
  listenToFiles([byId("open"), byId("open-first")], (text, name) => page.open(text, 0, name));
  listenToParent((told) => page.openTold(told), (number) => page.show(number), (fault) => page.whatIf.tell(fault));
  listenToPresses(page);
  listenToPointer();
}

function start() {
  const page = new Page();
  const text = byId("trace").textContent;
  const name = document.title.replace(TITLE, "").replace(/ · $/, "");
  listenToControls(page);
  if (text === "") document.body.dataset.shows = "start";
  else page.open(text, Number(location.hash.slice(1)), name, byId("audits").textContent);
}

start();
