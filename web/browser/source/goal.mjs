// An exercise with a goal: its reader makes calls, by pointing at slots in the drawings or by typing, until the last call is answered as it
// is to be. The program marks it: the goal is reached where the last expectation is met.
import { ASKED, MARKED, SHOWN } from "./sheet.mjs";
import { GoalSheet } from "./goal_sheet.mjs";
import { STOPPED } from "./program.mjs";
import { callIn } from "./exercise_text.mjs";
import { callsOf } from "./report.mjs";
import { decoded } from "./basics.mjs";
import { isCallsAlone, withCall, withMine, withoutCall } from "./goal_text.mjs";
import { placesOf, wordBitsOf, wordsTold } from "./places.mjs";
import { reasonsByCall } from "./why.mjs";
import { TRACED, traceBefore } from "./trace_text.mjs";

/** So long after the last key what was typed is run. */
const MILLISECONDS_STILL = 300;
const NEW = { mine: "", tries: 0, tried: "" };
const FAULT = "Calls alone can stand here, each with its thread and its operation.";

/** The address of each name that a trace tells. */
const namesIn = (trace) => new Map([...trace.matchAll(/^name (\S+) (\d+)$/gmu)].map(([, name, value]) => [name, value]));

export class Goal {
  /** `exercise` is the one that shows questions otherwise: its sheet, and the state beside it, are used. */
  constructor(exercise) {
    Object.assign(this, { exercise, page: exercise.page, told: null, round: 0, timer: null });
    this.sheet = new GoalSheet(exercise.sheet.parent, {
      next: () => this.page.openNext(), save: () => this.save(), restart: () => this.restart(), leave: () => this.page.leaveGoal(),
      typed: (mine) => this.typed(mine), takeBack: (number) => this.takeBack(number), step: (number) => exercise.showStep(number),
      rule: (operation) => this.page.rules.show(operation), see: () => exercise.heading.scrollIntoView(),
    });
  }

  get isOpen() {
    return this.told !== null;
  }

  /** The set-up with the calls of its reader. */
  get text() {
    return withMine(this.told, this.state.mine);
  }

  /** Shows an exercise with the calls that were made before, or those that it has in it. */
  open(told, kept) {
    const { exercise, page } = this;
    Object.assign(this, { told, state: { ...NEW, mine: told.mine, ...kept } });
    const handedIn = told.handedIn ? `Handed in: ${told.handedIn}.${exercise.course.length > 0 ? "" : " This is none of the exercises in this page."}` : "";
    this.sheet.draw(told, { name: page.title, course: exercise.sheet.course, printed: exercise.sheet.printed, wordBits: wordBitsOf(told.bare), handedIn });
    this.sheet.typed.value = this.state.mine;
    exercise.drawCourse();
    return this.run();
  }

  close() {
    clearTimeout(this.timer);
    this.told = null;
    this.round += 1;
  }

  /** What the program writes of the set-up by some words; or `{ fault }` where it refuses it; or null where other calls are there by then. */
  async ask(words, round) {
    const { page, exercise: { name } } = this;
    const answer = await page.program.run([...words, name], name, new TextEncoder().encode(this.text));
    if (round !== this.round || answer === STOPPED) return null;
    const isRun = answer.status === 0 || answer.status === 1;
    return isRun ? { text: decoded(answer.output) } : { fault: wordsTold(decoded(answer.errors))[0]?.words ?? decoded(answer.output) };
  }

  /** Runs the calls, and shows what they are answered: at a call, or at the last of them. */
  async run(shown) {
    clearTimeout(this.timer);
    this.timer = null;
    this.round += 1;
    const { round } = this;
    const texts = [];
    for (const words of [["check"], ["why"], TRACED]) {
      const answer = await this.ask(words, round);
      if (answer === null) return;
      const fault = answer.fault ?? (isCallsAlone(this.told, this.state.mine) ? "" : FAULT);
      if (fault) {
        this.show({ fault });
        return;
      }
      texts.push(answer.text);
    }
    this.showAnswers(...texts, shown);
  }

  /** The reader's calls, as they stand in the set-up. */
  get calls() {
    const lines = this.text.split("\n");
    const { length } = this.told.given;
    return placesOf(this.text).call.slice(length, -1).map((entry, at) => callIn(lines, entry, length + at + 1));
  }

  /** The numbers of the calls that a thread makes which is to make none. */
  othersIn(replies, trace) {
    const names = namesIn(trace);
    const wanted = this.told.threads?.map((name) => names.get(name) ?? name);
    return wanted ? this.calls.map(({ number }) => number).filter((number) => !wanted.includes(replies.get(number)?.words.split(" ")[0])) : [];
  }

  showAnswers(report, why, trace, shown) {
    const { calls } = this;
    const replies = new Map(callsOf(report).map((it) => [it.number, it]));
    const number = this.told.given.length + calls.length + 1;
    const { reply = "", outcome } = replies.get(number) ?? {};
    const others = this.othersIn(replies, trace);
    const isReached = outcome === "met" && others.length === 0;
    this.count(isReached);
    this.show({ calls, replies, reasons: reasonsByCall(why), number, count: calls.length, reply, others, isReached, fault: "" });
    this.showTrace(trace, { number, isReached, shown });
  }

  /** Shows the state behind the reader's calls; once the goal is reached, the goal's call too. */
  showTrace(trace, { number, isReached, shown }) {
    const { threads, given } = this.told;
    const names = namesIn(trace);
    const yours = { goal: number, threads: threads?.map((name) => names.get(name) ?? name) ?? null };
    this.exercise.heading.textContent = isReached ? "The run, call by call" : "The state behind your calls";
    this.exercise.showTrace(isReached ? trace : traceBefore(trace, number), isReached ? number : shown ?? number - 1, { canAsk: true, branch: given.length, yours });
  }

  /** Counts the calls as tried, where they were not before, and keeps them. */
  count(isReached) {
    const { mine, tried, tries } = this.state;
    const isNew = mine.trim() !== "" && mine !== tried;
    this.keep({ tries: tries + Number(isNew), tried: mine, stage: isReached ? SHOWN : mine.trim() ? MARKED : ASKED, right: Number(isReached), of: 1 });
  }

  keep(news) {
    const before = this.state.stage;
    Object.assign(this.state, news);
    this.exercise.keepState(this.state);
    if (this.state.stage !== before) this.exercise.drawCourse();
  }

  show(view) {
    const { mine } = this.state;
    this.sheet.show({ others: [], isReached: false, isLast: !this.exercise.next, isBegun: mine.trim() !== "", ...view });
  }

  /** Takes other calls in place of those before, and runs them. */
  take(mine, shown) {
    this.sheet.typed.value = mine;
    this.keep({ mine });
    return this.run(shown);
  }

  /** What is typed is run when it stands still. */
  typed(mine) {
    this.keep({ mine });
    this.round += 1;
    clearTimeout(this.timer);
    this.timer = setTimeout(() => this.run(), MILLISECONDS_STILL);
  }

  /** Does what is asked for in the drawings: one call more behind the call that is shown there, or that call taken back. */
  asked({ asked, pairs, number }) {
    if (!this.isOpen) return;
    const [{ mine }, { given }] = [this.state, this.told];
    const behind = Math.max(0, Math.min(this.calls.length, number - given.length));
    if (asked === "call") this.take(withCall(this.told, mine, behind, pairs), given.length + behind + 1);
    else if (asked === "take back") this.takeBack(number);
  }

  /** Takes one of the calls back; where the goal's call is shown, the last one. */
  takeBack(number) {
    const { length } = this.told.given;
    const at = Math.min(number - length, this.calls.length) - 1;
    if (at >= 0) this.take(withoutCall(this.told, this.state.mine, at), length + at);
  }

  restart() {
    this.keep(NEW);
    this.take("");
    this.exercise.sheet.focus();
  }

  /** How the goal was reached, in words. */
  get story() {
    const { stage, tries } = this.state;
    return `${stage === SHOWN ? "reached" : "not reached"}, calls ${this.calls.length}, tries ${tries}`;
  }

  save() {
    const { page, exercise: { name } } = this;
    page.saveText(`${this.text.trimEnd()}\n\n# answers: ${this.story}\n`, `${name.replace(/\.toml$/u, "")}.answers.toml`);
  }
}
