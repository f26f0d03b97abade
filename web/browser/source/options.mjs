// The options of the tabs: a field for each, and the words of the command line that it makes. What is typed is given to
// the program as it is: the program says what is wrong with it.
import { element } from "../../page/source/element.mjs";

/** A name that stands for itself on a command line, and for no number. */
const PLAIN_NAME = /^[a-z_][\w-]*$/iu;
const NAMED = /^(\d+)(?: @(\S+))?$/u;

/** A thread as the program tells it, `4096` or `4096 @client`, as the word of a command line that means it. */
export function threadWord(told) {
  const [, address, name = ""] = NAMED.exec(told) ?? [null, told];
  return PLAIN_NAME.test(name) ? name : address;
}

const ticked = (value) => value.split(",").filter(Boolean);

/** Draws two lists of threads for an option that takes a pair. */
function drawPair({ name, about, between, command, value, threads, give }) {
  const chosen = value.split(",");
  const lists = between.map((words, at) => {
    const made = element("select", { id: `option-${name}-${at}`, title: about, "aria-label": words }, element("option", { value: "" }, words),
      threads.map(({ word, told }) => element("option", { value: word }, told)));
    made.value = chosen[at] ?? "";
    made.addEventListener("change", () => {
      const both = lists.map((list) => list.value);
      give(both.some(Boolean) ? both.join(",") : "");
    });
    return made;
  });
  return element("fieldset", { title: about }, element("legend", {}, command), lists);
}

/** Draws a text field. */
function drawText({ name, about, least, value, inputmode = "numeric", give }) {
  const field = element("input", { type: "text", id: `option-${name}`, size: "8", inputmode, spellcheck: "false",
    autocomplete: "off", title: about, placeholder: least });
  field.value = value;
  field.addEventListener("input", () => give(field.value.trim()));
  return element("label", { class: "field" }, `--${name}`, field);
}

/** Draws a box to tick, with its words behind it; `given` is told whether it is ticked. */
function drawBox({ id, value, isTicked, words, title }, given) {
  const box = element("input", { type: "checkbox", id, value });
  box.checked = isTicked;
  box.addEventListener("change", () => given(box.checked));
  return element("label", { class: "tick", title }, box, words);
}

/** Draws an option without a value as a box to tick. */
const drawAlone = ({ name, about, value, give }) => drawBox({ id: `option-${name}`, value: name, isTicked: value !== "", title: about,
  words: element("code", {}, `--${name}`) }, (isTicked) => give(isTicked ? "yes" : ""));

/** Draws a box to tick for each thread. */
function drawTicks({ name, about, value, threads, give }) {
  const others = (word) => ticked(value()).filter((it) => it !== word);
  const boxes = threads.map(({ word, told }) => drawBox({ id: `option-${name}-${word}`, value: word, words: told,
    isTicked: ticked(value()).includes(word) }, (isTicked) => give([...others(word), ...(isTicked ? [word] : [])].join(","))));
  return element("fieldset", { title: about }, element("legend", {}, `--${name}`), boxes);
}

/** The options of the tabs, drawn for one tab at a time; `changed` is told when one is given. */
export class Options {
  constructor(parent, changed) {
    Object.assign(this, { parent, changed, values: {}, threads: [], drawn: "" });
  }

  value(tab, name) {
    return this.values[tab.name]?.[name] ?? "";
  }

  /** Whether an option is given; one that takes a pair is where both of it are chosen. */
  isGiven(tab, { name, between }) {
    const value = this.value(tab, name);
    return between ? value.split(",").filter(Boolean).length === 2 : value !== "";
  }

  /** The words of the command line for a tab, which may name a policy. An option may have a command of its own, in place of the tab's. */
  words(tab, policy) {
    const given = (tab.options ?? []).filter((option) => this.isGiven(tab, option));
    const asked = given.find(({ command }) => command);
    const own = asked ? [asked.command, this.value(tab, asked.name)] : [...tab.words, ...(tab.hasPolicy ? [policy] : [])];
    const options = given.filter((option) => option !== asked);
    return [...own, ...options.flatMap(({ name, isAlone }) => [`--${name}`, ...(isAlone ? [] : [this.value(tab, name)])])];
  }

  /** Gives an option of a tab, or takes it back by an empty value. */
  give(tab, name, value) {
    this.values[tab.name] = { ...this.values[tab.name], [name]: value };
    this.changed();
  }

  /** Takes all options back, or in their place those that were kept. */
  reset(values = {}) {
    Object.assign(this, { values: { ...values }, threads: [], drawn: "" });
  }

  /** Offers the threads of a run, as the program tells them, to a tab that has a box for each. */
  offer(tab, told) {
    this.threads = told;
    this.draw(tab);
  }

  /** The threads that are offered, and those that were ticked and are there no more. */
  threadsOf(value) {
    const offered = this.threads.map((told) => ({ word: threadWord(told), told }));
    const rest = ticked(value).filter((word) => !offered.some((it) => it.word === word));
    return [...offered, ...rest.map((word) => ({ word, told: word }))];
  }

  /** Draws the options of a tab, where they are not drawn yet. */
  draw(tab) {
    const parts = (tab.options ?? []).map((option) => ({ ...option, threads: this.threadsOf(this.value(tab, option.name)) }));
    const wanted = JSON.stringify([tab.name, parts]);
    if (wanted === this.drawn) return;
    this.drawn = wanted;
    const focused = document.activeElement?.id;
    this.parent.hidden = parts.length === 0;
    this.parent.replaceChildren(...parts.map((part) => this.drawOne(tab, part)));
    if (focused?.startsWith("option-")) document.getElementById(focused)?.focus();
  }

  /** Draws one option of a tab. */
  drawOne(tab, part) {
    const value = () => this.value(tab, part.name);
    const give = (given) => this.give(tab, part.name, given);
    if (part.between) return drawPair({ ...part, give, value: value() });
    if (part.ticks) return drawTicks({ ...part, give, value });
    return part.isAlone ? drawAlone({ ...part, give, value: value() }) : drawText({ ...part, give, value: value() });
  }
}
