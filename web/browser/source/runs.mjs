// The runs of the program on what is in the editor: when there is one, what belongs to it, and which answer is still wanted.
import { REPORT } from "./tabs.mjs";
import { STOPPED } from "./program.mjs";
import { callsOf } from "./report.mjs";
import { decoded, link, quoted } from "./basics.mjs";
import { element } from "../../page/source/element.mjs";
import { importWords, isLayout } from "./layout.mjs";
import { reasonsByCall } from "./why.mjs";
import { wordsTold } from "./places.mjs";

const byId = (id) => document.getElementById(id);
/** A layout is shown in the tab of the report, as the program answers it. */
const LAYOUT = { ...REPORT, show: (page, panel, text) => panel.replaceChildren(element("pre", { tabindex: "0" }, text)) };
/** So long after the last key the set-up is run by itself, */
const MILLISECONDS_STILL = 300;
/** unless it is longer than this, or its last run took so long. */
export const LETTERS_BY_ITSELF = 200_000;
const MILLISECONDS_BY_ITSELF = 1500;
/** A run that takes longer than this is told. */
const MILLISECONDS_UNTOLD = 150;
/** The reasons of refusals are found beside the report where that took no longer than this. */
const MILLISECONDS_REASONED = 500;

export class Runs {
  constructor(page) {
    Object.assign(this, { page, timer: null, round: 0, took: 0 });
  }

  /** What is typed is run by itself, where that is quick. */
  later() {
    clearTimeout(this.timer);
    this.timer = null;
    const { length } = this.page.editor.text;
    if (length > LETTERS_BY_ITSELF || this.took > MILLISECONDS_BY_ITSELF) {
      this.page.tell("changed: run it again");
      return;
    }
    this.timer = setTimeout(() => this.run(), MILLISECONDS_STILL);
  }

  /** Whether what is in the editor has been run, or waits for its reader to run it. */
  get isAtRest() {
    return this.timer === null && byId("stop").disabled;
  }

  /** What runs for the set-up before is not told any more. */
  leave() {
    this.round += 1;
    byId("stop").disabled = true;
  }

  /** Runs the program on the set-up: `check` for the report and the marks in the margin, and what the tab is for. */
  async run() {
    const { page } = this;
    clearTimeout(this.timer);
    this.timer = null;
    if (page.exercise.isOpen) return;
    this.round += 1;
    const [{ round }, { tab }] = [this, page];
    const text = page.editor.text;
    const bytes = new TextEncoder().encode(text);
    if (isLayout(page.name)) {
      await this.runLayout(text, bytes);
      return;
    }
    const late = setTimeout(() => page.tell("running…"), MILLISECONDS_UNTOLD);
    byId("stop").disabled = false;
    const isLast = () => round === this.round;
    const report = await this.answerTo(REPORT, bytes);
    const isEnough = report === STOPPED || tab.told || tab === REPORT;
    const answer = isEnough || !isLast() ? report : await this.answerTo(tab, bytes);
    const reasons = isLast() && answer !== STOPPED ? await this.reasonsOf(report, bytes) : new Map();
    clearTimeout(late);
    if (!isLast()) return;
    byId("stop").disabled = true;
    page.tell(answer === STOPPED ? "stopped" : "");
    if (report === STOPPED) return;
    page.reasons = reasons;
    page.reported = decoded(report.output);
    page.answers.mark(text, report, reasons);
    page.answers.showReportAlso(tab, report);
    if (answer === STOPPED) return;
    this.took = report.milliseconds + answer.milliseconds;
    page.answers.show(tab, answer);
  }

  answerTo(tab, bytes, words = this.page.options.words(tab, this.page.policyName)) {
    const { page } = this;
    const policy = { name: page.policyName, bytes: new TextEncoder().encode(page.policy.text) };
    return page.program.run([...words, page.name], page.name, bytes, tab.hasPolicy ? [policy] : []);
  }

  /** Says what is wrong with the layout in the editor, at its lines, or offers the set-up that the program makes of it. */
  async runLayout(text, bytes) {
    const { page } = this;
    const [{ round }, { name }] = [this, page];
    const words = importWords(name, page.rights);
    byId("command-line").textContent = ["sel4sim", ...words.map(quoted)].join(" ");
    const answer = await page.program.run(words, name, bytes);
    if (answer === STOPPED || round !== this.round) return;
    page.editor.clear();
    if (answer.status === 0) page.say("The program makes a set-up of this layout. ", link("open the set-up", () => page.openLayout(text, name)));
    else wordsTold(decoded(answer.errors)).filter(({ line }) => line >= 0).forEach(({ line, words }) => page.editor.fault(line, words));
    page.answers.show(LAYOUT, answer);
  }

  /** The reasons of the calls that a report tells as refused, by their numbers, where it was quick. */
  async reasonsOf(report, bytes) {
    const { page } = this;
    const isWanted = report !== STOPPED && report.milliseconds <= MILLISECONDS_REASONED
      && callsOf(decoded(report.output)).some(({ reply }) => reply.startsWith("refused"));
    if (!isWanted) return new Map();
    const { status, output } = await page.program.run(["why", page.name], page.name, bytes);
    return status === 0 || status === 1 ? reasonsByCall(decoded(output)) : new Map();
  }

  stop() {
    const { page } = this;
    page.program.stop();
  }

  /** What the program answers to other words on what is in the editor, or on another text. */
  async answerAlso(words, text = this.page.editor.text) {
    const { page } = this;
    this.round += 1;
    const { round } = this;
    const late = setTimeout(() => page.tell("running…"), MILLISECONDS_UNTOLD);
    byId("stop").disabled = false;
    const answer = await this.answerTo(page.tab, new TextEncoder().encode(text), words);
    clearTimeout(late);
    if (round !== this.round) return STOPPED;
    byId("stop").disabled = true;
    page.tell("");
    return answer;
  }
}
