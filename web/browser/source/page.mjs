// The page: a set-up in an editor, and what the program says of it in tabs. It brings the other modules together.
import { Addresses } from "./addresses.mjs";
import { Answers } from "./answers.mjs";
import { Branch } from "./branch.mjs";
import { Editor } from "./editor.mjs";
import { Examples } from "./examples.mjs";
import { Exercise } from "./exercise.mjs";
import { Lecture } from "./lecture.mjs";
import { Options } from "./options.mjs";
import { PageKeys } from "./page_keys.mjs";
import { Program, STOPPED, compiled, unpacked } from "./program.mjs";
import { Steps } from "./steps.mjs";
import { POLICY, REPORT, STEPS, TABS } from "./tabs.mjs";
import { Policy, isPolicy } from "./policy.mjs";
import { element } from "../../page/source/element.mjs";
import { LETTERS_BY_ITSELF, Runs } from "./runs.mjs";
import { Rules } from "./rules.mjs";
import { Sharing } from "./sharing.mjs";
import { TRACED } from "./trace_text.mjs";
import { Visits } from "./visits.mjs";
import { callAt, lastLineOf, placesOf } from "./places.mjs";
import { decoded, link, quoted } from "./basics.mjs";
import { drawTerms } from "./terms.mjs";
import { drawingOf } from "../../page/source/picture.mjs";
import { drawMade, drawRights, importWords, isLayout, setupNameOf } from "./layout.mjs";
import { keepLeft, keepState } from "./kept.mjs";
import { listenToFiles, saveFile } from "../../page/source/files.mjs";

const byId = (id) => document.getElementById(id);
const TITLE = "sel4sim";
const FIRST_EXERCISE = ["exercises", "01_slots_and_words"];
/** The field of the name is at least and at most so wide, in letters. */
const [NARROW, BROAD] = [12, 32];
/** What is asked of a sign in the margin is shown for so long. */
const MILLISECONDS_SHOWN = 8000;
/** The addresses and the markup that the page makes itself: its policy lets no others pass. */
const URLS = globalThis.trustedTypes?.createPolicy(TITLE, { createScriptURL: (url) => url, createHTML: (text) => text })
  ?? { createScriptURL: (url) => url, createHTML: (text) => text };

class Page {
  constructor(data) {
    this.data = data;
    this.markup = (text) => URLS.createHTML(text);
    this.viewer = this.markup(data.viewer);
    this.keys = new PageKeys(this);
    this.runs = new Runs(this);
    this.answers = new Answers(this);
    this.addresses = new Addresses(this);
    this.lecture = new Lecture(this);
    this.program = new Program(data.module, data.worker, URLS);
    this.policy = new Policy(byId("policy"), () => this.changed());
    this.editor = new Editor(byId("editor"), "Set-up", { changed: () => this.changed(), moved: (line) => this.follow(line),
      asked: (...mark) => this.hear(...mark) });
    this.options = new Options(byId("options"), () => this.given());
    this.steps = new Steps({ viewer: this.viewer, title: "The run, call by call",
      listen: (frame) => { this.keys.listenInFrame(frame); this.lecture.drawProjected(); },
      shown: (number) => this.showCall(number), asked: (told) => this.askWhatIf(told) });
    // What is kept the editor can undo.
    this.branch = new Branch({ steps: this.steps, told: () => ({ text: this.editor.text, title: this.title }),
      trace: (text) => this.runs.answerAlso(TRACED, text), keep: (text, number) => {
        this.firstCall = number;
        this.editor.mirror.setValue(text);
      } });
    this.visits = new Visits(this, (setup, chosen) => this.addresses.openVisited(setup, chosen));
    const places = { list: byId("examples"), dialog: byId("all"), field: byId("search"), found: byId("found") };
    this.examples = new Examples(places, data.topics, { open: (...place) => this.visits.go(() => this.openExample(...place)),
      openLeft: (setup) => this.visits.go(() => this.openAgain(setup)) });
    this.exercise = new Exercise(byId("exercise"), this);
    this.sharing = new Sharing(this);
    this.rules = new Rules(byId("rules"), data.rules);
    this.tab = REPORT;
    this.opened = 0;
    this.isFirstView = false;
    this.asOpened = "";
    this.firstCall = 0;
    this.shownCall = 0;
    this.rights = "";
    this.shownFor = null;
    this.reasons = new Map();
    this.reported = "";
    this.drawTabs();
    byId("terms").append(...drawTerms());
  }

  get name() {
    return byId("name").value.trim() || "setup.toml";
  }

  get title() {
    return this.name.replace(/\.(?:toml|cdl|system)$/u, "");
  }

  get policyName() {
    return `${this.title}.policy.toml`;
  }

  /** What is open, as it can be opened again. */
  get setup() {
    const { name, tab, isChanged, options: { values }, policy } = this;
    return { text: this.editor.text, name, tab: tab.name, options: values, isChanged,
      policy: policy.isChanged || tab === POLICY ? policy.text : "" };
  }

  /** Whether the set-up is not as it was opened. */
  get isChanged() {
    const { text } = this.editor;
    return text.trim() !== "" && (text !== this.asOpened || this.policy.isChanged);
  }

  /** Takes a set-up in place of the one in the editor, and runs it, or shows it as an exercise, where it is one and was not
      changed; done once that is shown. Where the set-up before it was changed, there is a way back to it. */
  async open(text, name, options = {}, isEdited = false, policy = "") {
    const left = this.isChanged ? this.setup : null;
    byId("welcome").hidden = true;
    this.endFirstView();
    this.setName(name);
    this.options.reset(options);
    this.editor.text = text;
    this.asOpened = this.editor.text;
    this.policy.take(policy);
    this.opened += 1;
    this.firstCall = 0;
    this.runs.leave();
    this.tell("");
    this.examples.show("");
    this.drawChosen();
    const isFaulty = text.includes("\uFFFD");
    this.notify(isFaulty, isFaulty ? `${name} is not UTF-8: what could not be read is shown as \uFFFD. ` : "",
      left && left.text !== this.asOpened ? this.wayBackTo(left) : "");
    this.keep();
    this.exercise.close();
    if (!isEdited && await this.exercise.open(text, name)) return;
    if (text.length > LETTERS_BY_ITSELF) this.answers.hold();
    else await this.run();
  }

  /** Opens a set-up once more, in the tab that it was left in. */
  openAgain({ text, name, tab, options, isChanged, policy }) {
    const found = this.lecture.isStepsAlone ? STEPS : TABS.find((it) => it.name === tab) ?? this.tab;
    return this.openIn(found, text, name, options, isChanged, policy);
  }

  /** Opens a file: a policy beside the set-up, a layout, of which the program makes a set-up, or a set-up. */
  openFile(text, name) {
    if (isPolicy(text)) {
      this.policy.editor.text = text;
      this.choose(POLICY);
      return null;
    }
    return isLayout(name) ? this.openLayout(text, name, "") : this.open(text, name);
  }

  /** Opens the set-up that the program makes of a layout, by rights that it does not say; where it makes none, the layout, with its faults at
      their lines. */
  async openLayout(text, name, rights = this.rights) {
    this.rights = rights;
    const answer = await this.program.run(importWords(name, rights), name, new TextEncoder().encode(text));
    if (answer === STOPPED) return;
    if (answer.status !== 0) {
      await this.openIn(REPORT, text, name);
      return;
    }
    await this.openIn(REPORT, decoded(answer.output), setupNameOf(name));
    this.say(...drawMade(name, decoded(answer.errors), link("see the layout", () => this.openIn(REPORT, text, name)),
      drawRights(name, rights, (chosen) => this.openLayout(text, name, chosen))));
  }

  /** Keeps a set-up that was changed and is left, and offers the way back to it. */
  wayBackTo(setup) {
    keepLeft(setup);
    this.examples.drawLeft();
    return element("span", {}, `${this.name} is opened. `, link(`back to ${setup.name}, as you left it`, () => this.openAgain(setup)));
  }

  setName(name) {
    byId("name").value = name;
    byId("printed-name").textContent = name;
    byId("name").size = Math.max(NARROW, Math.min(BROAD, name.length));
    document.title = `${this.title} · ${TITLE}`;
  }

  /** Tells something, in place of what was told before. */
  say(...notice) {
    this.notify(false, ...notice);
  }

  /** Tells that something is wrong. */
  warn(...notice) {
    this.notify(true, ...notice);
  }

  notify(isFault, ...notice) {
    byId("notice").classList.toggle("fault", isFault);
    byId("notice").replaceChildren(...notice.filter(Boolean));
  }

  keep() {
    keepState({ ...this.setup, read: this.addresses.read, hasLetters: this.keys.hasLetters }, this.addresses.frame);
  }

  /** What is typed is kept, and run by itself where that is quick. */
  changed() {
    this.keep();
    if (this.isChanged) this.examples.show("");
    this.runs.later();
  }

  /** Whether what is in the editor has been run, or waits for its reader to run it, and nothing else is on its way there. */
  get isAtRest() {
    return this.runs.isAtRest && !this.addresses.isReading;
  }

  run() {
    return this.runs.run();
  }

  stop() {
    this.program.stop();
  }

  /** An option of the tab is given: the command line has it, and the run behind it is as for what is typed. */
  given() {
    this.drawChosen();
    this.changed();
  }

  /** Gives an option of a tab, and shows it. */
  give(tab, name, value) {
    this.options.give(tab, name, value);
  }

  tell(state) {
    byId("state").textContent = state;
  }

  /** The words of the command line of the tab that is shown, without the set-up. */
  get words() {
    return this.options.words(this.tab, this.policyName);
  }

  commandLine(words) {
    return ["sel4sim", ...[...words, this.name].map(quoted)].join(" ");
  }

  drawTabs() {
    for (const tab of TABS) {
      const { name, about, isRare } = tab;
      const [id, panel] = [`tab-${name}`, `panel-${name}`];
      const button = element("button", { type: "button", role: "tab", id, "aria-controls": panel, title: about }, name);
      button.classList.toggle("rare", isRare === true);
      button.addEventListener("click", () => this.choose(tab));
      byId("tabs").append(button);
      byId("panels").append(element("div", { id: panel, role: "tabpanel", "aria-labelledby": id }));
    }
    this.drawChosen();
  }

  drawChosen() {
    for (const { name } of TABS) {
      const isChosen = name === this.tab.name;
      byId(`tab-${name}`).setAttribute("aria-selected", String(isChosen));
      byId(`tab-${name}`).tabIndex = isChosen ? 0 : -1;
      byId(`panel-${name}`).hidden = !isChosen;
    }
    const [row, chosen] = [byId("tabs"), byId(`tab-${this.tab.name}`)];
    const before = chosen.offsetLeft - row.offsetLeft;
    row.scrollLeft = Math.min(before, Math.max(row.scrollLeft, before + chosen.offsetWidth - row.clientWidth));
    document.body.dataset.tab = this.tab.name;
    if (this.tab === POLICY) this.policy.editor.refresh();
    this.options.draw(this.tab);
    byId("command-line").textContent = this.commandLine(this.words);
  }

  /** Shows the tabs that are used less, or hides them again. */
  showMore(isMore) {
    document.body.classList.toggle("more", isMore);
    byId("more-tabs").setAttribute("aria-expanded", String(isMore));
    byId("more-tabs").textContent = isMore ? "fewer" : "more";
  }

  choose(tab) {
    this.endFirstView();
    this.tab = tab;
    this.editor.unpoint();
    this.drawChosen();
    this.keep();
    this.run();
  }

  /** The set-up that the first view hides on a phone is there again. */
  endFirstView() {
    if (this.isFirstView) this.setWide(false);
    this.isFirstView = false;
  }

  /** Chooses a tab by its place, and puts the focus there. */
  chooseAt(at) {
    const tab = TABS[(at + TABS.length) % TABS.length];
    this.choose(tab);
    byId(`tab-${tab.name}`).focus();
  }

  /** Opens an example, in the tab that it is for. */
  openExample(topic, name) {
    const found = this.examples.find(topic, name);
    if (!found) return;
    const { text, tab, options, policy } = found;
    this.openIn(TABS.find((it) => it.name === tab) ?? this.tab, text, `${name}.toml`, tab ? { [tab]: options } : {}, false, policy);
    this.examples.show(`${topic}/${name}`);
  }

  /** Opens the set-up that the program writes for these words, in a tab, at its last call; a button leads back. Where it writes
      none, gives what it says in its place; so it does where what is shown is not the answer to what is in the editor. */
  async openWitness(words, ending, tab, about) {
    const { textContent: state } = byId("state");
    if (!this.isAtRest || state) return state;
    const { setup } = this;
    const answer = await this.runs.answerAlso(words);
    if (answer === STOPPED) return "stopped";
    const text = decoded(answer.output);
    if (answer.status !== 0) return text || decoded(answer.errors) || answer.trap || "";
    this.openIn(tab, text, `${this.title}.${ending}.toml`);
    this.firstCall = placesOf(text).call.length;
    this.say(about, " ", link(`back to ${setup.name}`, () => this.openAgain(setup)));
    return "";
  }

  /** A call that the set-up does not have is asked for in the steps, or what is to come of those that were. */
  askWhatIf(told) {
    if (told.asked !== "call" || this.isAtRest) this.branch.do(told);
  }

  /** Opens a set-up in a tab. */
  openIn(tab, text, name, options = {}, isEdited = false, policy = "") {
    this.tab = tab;
    return this.open(text, name, options, isEdited, policy);
  }

  /** Shows the set-up of an exercise as any other one, with a way back to the sheet. */
  leaveExercise() {
    const { text, name } = this.exercise;
    this.exercise.close();
    this.editor.refresh();
    this.say("This is the set-up of the exercise, with its answers. ", link("back to the sheet", () => this.open(text, name)));
    this.run();
  }

  /** Shows the set-up of an exercise with a goal, with the calls of its reader, with a way back to the sheet. */
  async leaveGoal() {
    const { opened, name, goal } = this.exercise;
    await this.open(goal.text, name, {}, true);
    this.say("This is the set-up of the exercise, with your calls. ", link("back to the sheet", () => this.open(opened, name)));
  }

  /** Opens the next exercise. */
  async openNext() {
    const { text, name } = this.exercise.next;
    await this.visits.go(() => this.open(text, `${name}.toml`));
    this.exercise.sheet.focus();
  }

  /** Marks the lines of the call that the steps show, and brings them into sight. */
  showCall(number) {
    this.branch.shown(number);
    this.shownCall = this.branch.isOpen ? this.branch.at : number;
    if (this.branch.isOpen) {
      this.editor.unpoint();
      return;
    }
    const place = placesOf(this.editor.text, number).call[number - 1];
    if (place && this.tab === STEPS) this.editor.point(place.line, lastLineOf(place));
    else this.editor.unpoint();
  }

  /** Says what the call of a line was answered, or what is wrong there: what the sign in its margin tells; and shows it for a
      while, where that is asked for. */
  hear(line, isShown) {
    const place = placesOf(this.editor.text).call[callAt(this.editor.text, line) - 1];
    const words = this.editor.told.get(line) ?? this.editor.told.get(place?.line) ?? "No call is here.";
    // The same words are said again only where they are new.
    byId("heard").textContent = "";
    setTimeout(() => { byId("heard").textContent = words; });
    byId("heard").classList.toggle("unseen", !isShown);
    clearTimeout(this.shownFor);
    this.shownFor = setTimeout(() => byId("heard").classList.add("unseen"), MILLISECONDS_SHOWN);
  }

  /** Has the steps show the call of a line. */
  follow(line) {
    if (this.tab !== STEPS) return;
    const number = callAt(this.editor.text, line);
    if (number > 0 && number !== this.shownCall) this.steps.go(number);
  }

  goToCall(number) {
    const place = placesOf(this.editor.text).call[number - 1];
    if (!place) return;
    this.setWide(false);
    this.editor.go(place.line);
  }

  setWide(isWide) {
    document.body.classList.toggle("wide", isWide);
    byId("wide").textContent = isWide ? "show set-up" : "hide set-up";
    this.editor.refresh();
  }

  save() {
    this.saveText(this.editor.text, this.name);
  }

  saveText(text, name) {
    saveFile(text, name);
  }

  /** Saves a drawing of the tab that is shown, an SVG, in the colours of the page. */
  saveDrawing(drawing, what) {
    const title = `${drawing.getAttribute("aria-label") ?? what}, ${this.title}`;
    saveFile(drawingOf(drawing, getComputedStyle(byId("panels").parentElement).backgroundColor, title), `${this.title}.${what}.svg`);
  }

  /** Puts the focus into the panel of the tab: on the calls of the steps, or on the first thing that can be pressed or scrolled. */
  enterPanel(event) {
    const panel = byId(`panel-${this.tab.name}`);
    const first = panel.querySelector("button, input, summary, [tabindex='0']") ?? panel;
    event.preventDefault();
    if (this.tab === STEPS) this.steps.focus();
    else first.focus();
  }

  /** Shows what the words mean, at the end of what is said about the page. */
  showWords() {
    byId("about").showModal();
    byId("words").focus();
  }

  /** In a narrow window, shows the controls that are used less, or folds them away. */
  toggleMenu() {
    byId("menu").setAttribute("aria-expanded", String(document.body.classList.toggle("menu")));
  }

  edit() {
    this.setWide(false);
    this.editor.mirror.focus();
  }

  listen() {
    const on = (id, act) => byId(id).addEventListener("click", act);
    on("run", () => this.run());
    on("stop", () => this.stop());
    on("welcome-close", () => { byId("welcome").hidden = true; });
    on("welcome-report", () => this.choose(REPORT));
    on("save", () => this.save());
    on("share", () => this.sharing.open());
    on("save-policy", () => this.saveText(this.policy.text, this.policyName));
    on("welcome-exercise", () => this.visits.go(() => this.openExample(...FIRST_EXERCISE)));
    on("wide", () => this.setWide(!document.body.classList.contains("wide")));
    on("project", () => this.lecture.project(true));
    on("print-step", () => this.lecture.printStep());
    on("menu", () => this.toggleMenu());
    on("welcome-words", () => this.showWords());
    on("more-tabs", () => this.showMore(!document.body.classList.contains("more")));
    on("letters", () => this.keep());
    on("show-keys", () => byId("keys").showModal());
    on("show-about", () => byId("about").showModal());
    on("show-rules", () => this.rules.show());
    on("more-about", () => byId("about").showModal());
    on("copy", () => navigator.clipboard?.writeText(byId("command-line").textContent));
    on("save-output", () => {
      const { shown } = this.answers;
      if (shown) saveFile(shown.answer.output, `${this.title}.${shown.tab.name}`);
    });
    byId("name").addEventListener("change", () => {
      this.setName(this.name);
      this.choose(this.tab);
    });
    byId("tabs").addEventListener("keydown", (event) => {
      const [{ key }, at] = [event, TABS.indexOf(this.tab)];
      if (key === "ArrowRight") this.chooseAt(at + 1);
      if (key === "ArrowLeft") this.chooseAt(at - 1);
      if (key === "ArrowDown" || key === "Enter") this.enterPanel(event);
    });
    listenToFiles([byId("open")], (text, name) => this.openFile(text, name));
    this.keys.listen(document);
  }
}

/** Begins once what the page has packed is unpacked; until then the program's module is compiled already. */
async function start() {
  const module = compiled(byId("module").textContent);
  const page = new Page({ module, ...JSON.parse(await unpacked(byId("data").textContent)) });
  for (const name of ["version", "commit", "toolchain"]) {
    byId(name).textContent = document.querySelector(`meta[name="sel4sim-${name}"]`).content;
  }
  page.listen();
  page.addresses.begin();
  // For tests: a run of the program on any bytes, in the page's own worker.
  window.sel4sim = { page, run: (...asked) => page.program.run(...asked) };
}

start();
