// An exercise on the page: its sheet, and beside it the state that its questions begin in. What the program answers is shown
// once every answer is given and marked, by the program itself: an answer is right where its expectation is met.
import { ASKED, MARKED, SHOWN, Sheet } from "./sheet.mjs";
import { Branch } from "./branch.mjs";
import { Goal } from "./goal.mjs";
import { STEPS_OF_HELP } from "./card.mjs";
import { STOPPED } from "./program.mjs";
import { Steps } from "./steps.mjs";
import { callsOf } from "./report.mjs";
import { courseOf, drawCourse } from "./course.mjs";
import { button, element } from "../../page/source/element.mjs";
import { drawPrinted } from "./printed.mjs";
import { exerciseOf, withExpectations } from "./exercise_text.mjs";
import { goalOf } from "./goal_text.mjs";
import { indicesOf } from "./cutting.mjs";
import { keepAt, keptAt } from "./kept.mjs";
import { reasonsByCall } from "./why.mjs";
import { TRACED, traceBefore } from "./trace_text.mjs";
import { wordBitsOf } from "./places.mjs";

/** What is kept of all exercises, by the texts that ask. */
const KEPT = "sel4sim.exercises";
const NEW = { stage: ASKED, answers: {}, marked: {}, tries: 0, atFirst: [], right: 0, checked: {}, wasLeft: false, helped: {}, cuts: {}, markedCuts: {},
  bits: { of: 0, right: 0 } };
const NARROW = "(max-width: 800px)";
/** What a retype makes where it makes threads or endpoints. */
const KINDS_MADE = { threads: "1", endpoints: "2" };

/** What came of an exercise that was opened before: "right", "begun" or "". */
export function cameOf(text) {
  const { stage, right, of, bits = NEW.bits } = keptAt(KEPT)[text] ?? {};
  if (stage === SHOWN && right === of && bits.right === bits.of) return "right";
  return stage === MARKED || stage === SHOWN ? "begun" : "";
}

/** How often help was asked for, in words. */
function hintsOf(helped) {
  const hints = Object.values(helped).reduce((sum, steps) => sum + steps, 0);
  return hints > 0 ? `hints ${hints}` : "";
}

/** How far a call gets, by the reason that the program gives of its refusal: all of it but the last line. */
function howFar(reason) {
  if (reason === undefined) return "No check of the kernel refuses it.";
  const lines = reason.split("\n").slice(0, -1);
  return lines.length > 0 ? lines.join("\n") : "A check refuses it, and no lookup of several steps comes before that check.";
}

/** The threads and endpoints of a trace, with their names, to choose from; of a kind that later calls make there are none. */
function objectsOf(trace, calls) {
  const names = new Map([...trace.matchAll(/^name (\S+) (\d+)$/gmu)].map(([, name, value]) => [value, name]));
  const found = (kind) => [...new Set([...trace.matchAll(new RegExp(`^  \\+ ${kind} (\\d+) `, "gmu"))].map(([, it]) => it))];
  const isMade = (kind) => calls.some(({ pairs }) => pairs.get("op") === "retype" && pairs.get("kind") === kind);
  return {
    threads: isMade(KINDS_MADE.threads) ? undefined : found("thread").map((it) => [it, names.has(it) ? `${names.get(it)} (${it})` : it]),
    endpoints: isMade(KINDS_MADE.endpoints) ? undefined : found("endpoint").map((it) => [it, it]),
  };
}

export class Exercise {
  constructor(parent, page) {
    Object.assign(this, { page, told: null, text: "", name: "", course: [] });
    const sheet = element("section", { class: "sheet", role: "main", "aria-label": "Exercise" });
    this.heading = element("h2", {});
    const back = button("back to the task", () => sheet.scrollIntoView(), { class: "link way" });
    this.beside = element("section", { class: "beside", "aria-label": "The run" }, this.heading, back);
    parent.append(sheet, this.beside);
    window.addEventListener("beforeprint", () => this.print());
    this.sheet = new Sheet(sheet, {
      mark: () => this.alone(() => this.mark()), check: () => this.alone(() => this.checkOne()), reveal: () => this.alone(() => this.reveal()),
      save: () => this.save(), restart: () => this.restart(), leave: () => this.leave(), next: () => page.openNext(),
      turn: (inTurn) => this.keep({ inTurn }), answered: (card) => this.answered(card),
      cut: () => this.keep({ cuts: this.sheet.cuts }), step: (number) => this.showStep(number),
      see: () => this.heading.scrollIntoView(), rule: (operation) => page.rules.show(operation),
      help: (card) => this.alone(() => this.help(card)),
    });
    this.goal = new Goal(this);
  }

  get isOpen() {
    return this.told !== null;
  }

  /** Shows the exercise of a set-up, if it is one: whether it is. */
  async open(text, name) {
    const told = exerciseOf(text) ?? goalOf(text);
    this.close();
    if (!told) return false;
    const asked = told.bare ?? text;
    Object.assign(this, { told, text: asked, opened: text, name, course: courseOf(this.page.data.topics, asked) });
    document.body.classList.add("exercise");
    if (told.goal) {
      this.sheet.parent.inert = false;
      await this.goal.open(told, keptAt(KEPT)[text]);
      return true;
    }
    // Until the new sheet is drawn, the one before it takes no answers.
    this.sheet.parent.inert = true;
    const trace = await this.ask(TRACED, text);
    if (trace === null) return true;
    this.state = { ...NEW, inTurn: told.inTurn, ...keptAt(KEPT)[text], of: told.calls.filter(({ asked }) => asked).length };
    this.draw(trace);
    if (this.state.stage !== ASKED) await this.drawMarks(this.state.marked);
    else if (this.current && this.checked.length > 0) await this.showChecked();
    return true;
  }

  close() {
    this.told = null;
    this.branch?.close();
    this.goal.close();
    document.body.classList.remove("exercise");
  }

  /** What the program writes of a text, or null where another set-up is open by then; where it refuses the text, the set-up is
      shown as any other one. */
  async ask(words, text) {
    const { told, name, page } = this;
    const answer = await page.program.run([...words, name], name, new TextEncoder().encode(text));
    // What was stopped gives nothing away: the sheet stays.
    if (told !== this.told || answer === STOPPED) return null;
    if (answer.status === 0 || answer.status === 1) return new TextDecoder().decode(answer.output);
    this.close();
    page.run();
    return null;
  }

  draw(trace) {
    const first = this.told.calls.find(({ asked }) => asked).number;
    const before = traceBefore(trace, first);
    const objects = objectsOf(before, this.told.calls.slice(first - 1));
    this.sheet.draw(this.told, this.page.title, { ...objects, wordBits: wordBitsOf(this.text), indices: this.told.inBits ? indicesOf(trace) : undefined });
    this.isDrawing = true;
    for (const card of this.sheet.asking) card.answer = this.state.answers[card.number] ?? "";
    for (const { number, cutting } of this.sheet.cutting) cutting.value = this.state.cuts[number] ?? [];
    this.isDrawing = false;
    this.sheet.parent.inert = false;
    this.heading.textContent = first > 1 ? `The state before call ${first}` : "The state after boot";
    this.showTrace(before, first - 1);
    this.keep({});
    this.drawCourse();
  }

  drawCourse() {
    const { text, page } = this;
    drawCourse(this.sheet.course, this.course, { opened: text, came: cameOf, open: (...setup) => page.visits.go(() => page.open(...setup)) });
  }

  /** The set-up of the exercise behind this one in its course, or undefined. */
  get next() {
    return this.course[1 + this.course.findIndex(({ text }) => text === this.text)];
  }

  /** Shows a trace beside the sheet, at a call; `how` says what else there is to do with it. */
  showTrace(trace, number, how = { canAsk: false }) {
    this.steps ??= this.newSteps();
    const { page } = this;
    this.branch.close();
    if (!this.steps.frame.isConnected) this.beside.append(this.steps.frame);
    this.trace = trace;
    this.steps.show(trace, page.title, number, how);
  }

  /** The steps beside the sheet. In an exercise with a goal calls are asked for there; in another one what if, once its answers are shown. */
  newSteps() {
    const { page } = this;
    const steps = new Steps({ viewer: page.viewer, title: "The run, call by call", listen: (frame) => page.keys.listenInFrame(frame),
      shown: (number) => this.branch.shown(number), asked: (told) => (this.goal.isOpen ? this.goal.asked(told) : this.branch.do(told)) });
    this.branch = new Branch({ steps, told: () => ({ text: this.answeredText, title: page.title }), trace: (text) => this.alone(() => this.traceOf(text)) });
    return steps;
  }

  /** What the program answers to another set-up, asked for its trace. */
  async traceOf(text) {
    const { told, name } = this;
    const answer = await this.page.program.run([...TRACED, name], name, new TextEncoder().encode(text));
    return told === this.told ? answer : STOPPED;
  }

  /** Puts the state that the questions begin in on the print, while no answer is shown. */
  print() {
    if (!this.isOpen || !this.steps?.isLoaded) return;
    const isAsked = this.goal.isOpen || this.state.stage !== SHOWN && !this.current;
    this.sheet.printed.hidden = !isAsked;
    if (isAsked) drawPrinted(this.sheet.printed, this.steps.frame, { markup: this.page.markup, title: this.heading.textContent });
  }

  /** Shows what a call changed. */
  showStep(number) {
    if (this.branch.isOpen) this.branch.leave(number);
    else this.steps.go(number);
    if (matchMedia(NARROW).matches) this.heading.scrollIntoView();
  }

  /** Keeps how far one is with what was opened, over a reload. */
  keepState(state) {
    keepAt(KEPT, { ...keptAt(KEPT), [this.opened]: state });
  }

  /** Keeps what is new of the state, and shows how far one is. */
  keep(news) {
    Object.assign(this.state, news, { bits: this.bits });
    this.keepState(this.state);
    const { stage, of, atFirst, inTurn, bits } = this.state;
    const { checked, current } = this;
    const right = current ? checked.filter((number) => this.state.checked[number]).length : this.state.right;
    this.sheet.show({ stage, right, given: this.given.length, of, bits, inTurn, atFirst: atFirst.length, current, checked: checked.length, isLast: !this.next });
    if (news.stage) this.drawCourse();
  }

  /** An answer was changed: the mark of the one before it goes. */
  answered(card) {
    if (this.isDrawing) return;
    if (this.state.stage === MARKED) card.unmark();
    this.keep({ answers: Object.fromEntries(this.sheet.answers) });
  }

  /** The calls that were checked, where one is asked at a time. */
  get checked() {
    return Object.keys(this.state.checked).map(Number);
  }

  /** The call that is asked for now, where one is asked at a time, or 0. */
  get current() {
    const { stage, inTurn, checked } = this.state;
    if (stage !== ASKED || !inTurn) return 0;
    return this.sheet.asking.find(({ number }) => checked[number] === undefined)?.number ?? 0;
  }

  /** How many indices are asked for in bits, and how many of them are marked as read right. */
  get bits() {
    const { cutting } = this.sheet;
    return { of: cutting.length, right: cutting.filter((it) => it.cutting.isMarked && it.cutting.isRight).length };
  }

  /** Whether no bits are asked for any more. */
  get areBitsRead() {
    return this.sheet.cutting.every(({ cutting }) => cutting.isShown || cutting.isMarked && cutting.isRight);
  }

  /** The set-up with the answers in it. */
  get answeredText() {
    return withExpectations(this.text, this.sheet.answers);
  }

  /** Does one thing at a time: what is pressed while the program marks is not done. */
  async alone(act) {
    const { marking } = this.sheet;
    if (marking.inert) return STOPPED;
    marking.inert = true;
    try {
      return await act();
    } finally {
      marking.inert = false;
    }
  }

  /** What the program answers to each call, by its number, or null. */
  async replies() {
    const report = await this.ask(["check"], this.answeredText);
    return report && new Map(callsOf(report).map((it) => [it.number, it]));
  }

  /** Has the program mark the answers; one try more. */
  async mark() {
    const { tries, atFirst } = this.state;
    const right = await this.drawMarks(Object.fromEntries(this.sheet.answers), this.sheet.cuts);
    if (!right) return;
    this.keep({ tries: tries + 1, atFirst: tries === 0 ? right : atFirst });
    if (this.state.stage === SHOWN) this.sheet.status.focus();
    else this.sheet.cards.get(this.sheet.wrong[0])?.focus();
  }

  /** Marks the answers and the bits that are as these, and shows all of them where they are right or were asked for: the numbers of the
      right answers, or null. */
  async drawMarks(marked, markedCuts = this.state.markedCuts) {
    const replies = await this.replies();
    if (!replies) return null;
    const cards = this.sheet.asking.filter(({ number, answer }) => answer && marked[number] === answer);
    const isRight = ({ number }) => replies.get(number)?.outcome === "met";
    for (const card of cards) card.mark(isRight(card), this.state.helped[card.number]);
    for (const { number, cutting } of this.sheet.cutting) {
      if (markedCuts[number]?.join() === cutting.value.join()) cutting.mark();
    }
    const right = cards.filter(isRight).map(({ number }) => number);
    const isShown = this.state.stage === SHOWN || right.length + this.given.length === this.state.of && this.areBitsRead;
    this.keep({ marked, markedCuts, right: right.length, stage: isShown ? SHOWN : MARKED });
    if (isShown) await this.showAll(replies);
    else await this.drawHelped(replies);
    return right;
  }

  /** Helps with a wrong answer, each step counted: the rule, how far the call gets, and then its answer alone. */
  async help(card) {
    const { helped, of, right } = this.state;
    const steps = (helped[card.number] ?? 0) + 1;
    const replies = await this.replies();
    if (!replies) return;
    this.keep({ helped: { ...helped, [card.number]: steps } });
    if (this.given.length + right === of && this.areBitsRead) {
      await this.reveal();
      return;
    }
    await this.drawHelped(replies);
    card.focusOutcome();
    if (steps === 1) this.page.rules.show(card.call.pairs.get("op"));
  }

  /** The calls whose answers were shown one by one. */
  get given() {
    return Object.entries(this.state.helped).filter(([, steps]) => steps >= STEPS_OF_HELP).map(([number]) => Number(number));
  }

  /** Shows the help that was asked for with wrong answers. */
  async drawHelped(replies) {
    const helped = Object.entries(this.state.helped);
    const why = helped.length > 0 ? await this.ask(["why"], this.answeredText) : null;
    if (why === null) return;
    const reasons = reasonsByCall(why);
    for (const [number, steps] of helped) {
      const [card, reason] = [this.sheet.cards.get(Number(number)), reasons.get(Number(number))];
      if (steps >= STEPS_OF_HELP) card.show(replies.get(card.number), reason);
      else if (card.isWrong) card.offer(steps, steps > 1 ? howFar(reason) : undefined);
    }
    this.keep({});
  }

  /** Shows all answers, though some are wrong. */
  async reveal() {
    this.keep({ stage: SHOWN });
    await this.drawMarks(this.state.marked);
    this.sheet.status.focus();
  }

  /** Shows the set-up itself, whose report tells every answer: before these are shown, it is asked whether that is wanted. */
  leave() {
    if (this.state.stage === SHOWN) {
      this.page.leaveExercise();
      return;
    }
    const [show, stay] = ["show the answers", "back to the questions"].map((words) => element("button", { type: "button" }, words));
    const asked = element("dialog", { "aria-label": "The answers" }, element("p", {}, "The report of the set-up itself tells what every call "
      + "is answered. What you hand in says that you looked at it."), element("p", { class: "buttons" }, stay, show));
    const end = (act) => () => {
      asked.remove();
      act();
    };
    stay.addEventListener("click", end(() => this.sheet.buttons.leave.focus()));
    asked.addEventListener("close", end(() => this.sheet.buttons.leave.focus()));
    show.addEventListener("click", end(() => {
      this.keep({ wasLeft: true });
      this.page.leaveExercise();
    }));
    document.body.append(asked);
    asked.showModal();
  }

  /** Shows below each call what it is answered and why, and beside them the whole run. */
  async showAll(replies) {
    const shown = await this.showCards(replies, Infinity);
    if (!shown) return;
    this.keep({});
    this.heading.textContent = "The run, call by call";
    this.showTrace(shown, this.sheet.first, { canAsk: true });
  }

  /** Shows what the calls before one are answered: the trace, or null. */
  async showCards(replies, end) {
    const why = await this.ask(["why"], this.answeredText);
    const trace = why === null ? null : await this.ask(TRACED, this.answeredText);
    if (trace === null) return null;
    const reasons = reasonsByCall(why);
    for (const card of this.sheet.cards.values()) {
      if (card.number < end) card.show(replies.get(card.number) ?? {}, reasons.get(card.number));
    }
    return trace;
  }

  /** Marks the one answer that is asked for, and goes on to the next. */
  async checkOne() {
    const { current } = this;
    const replies = await this.replies();
    if (!replies) return;
    this.keep({ checked: { ...this.state.checked, [current]: replies.get(current)?.outcome === "met" } });
    if (this.current) {
      await this.showChecked(replies);
      this.sheet.cards.get(this.current).focus();
      return;
    }
    const right = this.checked.filter((number) => this.state.checked[number]);
    this.keep({ stage: SHOWN, tries: 1, atFirst: right });
    await this.drawMarks(Object.fromEntries(this.sheet.answers));
    this.sheet.status.focus();
  }

  /** Shows what was answered up to the call that is asked for now, and the state before it. */
  async showChecked(known = null) {
    const { current } = this;
    const replies = known ?? await this.replies();
    const trace = replies && await this.showCards(replies, current);
    if (!trace) return;
    this.heading.textContent = `The state before call ${current}`;
    this.showTrace(traceBefore(trace, current), current - 1);
  }

  restart() {
    const { [this.text]: _, ...others } = keptAt(KEPT);
    keepAt(KEPT, others);
    this.open(this.text, this.name);
  }

  /** How the answers came about, in words. */
  get story() {
    const { right, of, atFirst, tries, stage, inTurn, wasLeft, helped, bits } = this.state;
    const looked = wasLeft ? "the report was looked at" : "";
    if (stage === ASKED) return [`${this.sheet.answers.size} of ${of} answered, not marked`, looked].filter(Boolean).join(", ");
    const later = this.sheet.asking.map(({ number }) => number).filter((number) => !atFirst.includes(number));
    const words = [`${right} of ${of} right`, `${atFirst.length} at the first try${later.length > 0 ? ` (not ${later.join(", ")})` : ""}`,
      `tries ${tries}`, bits.of > 0 ? `bits ${bits.right} of ${bits.of}` : "", inTurn ? "one at a time" : "", hintsOf(helped), this.given.length > 0 ? `shown one by one ${this.given.join(" ")}` : "",
      stage === SHOWN && right + this.given.length < of ? "then shown" : "", looked];
    return words.filter(Boolean).join(", ");
  }

  /** Saves the set-up with the answers in it, and how they came about: any program marks it again. */
  save() {
    const text = `${this.answeredText.trimEnd()}\n\n# answers: ${this.story}\n`;
    this.page.saveText(text, `${this.name.replace(/\.toml$/u, "")}.answers.toml`);
  }
}
