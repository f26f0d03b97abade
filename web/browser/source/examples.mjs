// The set-ups to choose from: in a list those with which one begins and those of the reader that were changed and left for others; and
// all of them, by topic, in a dialog with a field to search in.
import { button, counted, dim, element } from "../../page/source/element.mjs";
import { leftSetUps } from "./kept.mjs";

/** The topic of the reader's own set-ups. */
const LEFT = "what you changed";
/** Behind the last entry of the list there are all. */
const ALL = "all";
/** Of these topics the list has the set-ups of some groups, or all of them. */
const LISTED = new Map([["exercises", null], ["examples", "begin here"]]);
/** So many letters of a set-up's first comment stand behind its name. */
const LETTERS_TOLD = 60;

const words = (name) => name.replace(/_/gu, " ");

/** The first sentence of the comments at the head of a set-up, or as much of it as there is room for. */
function aboutOf(text) {
  const comments = /^(?:#.*\n)*/u.exec(text)[0].replace(/^#\s?(?:exercise: .*)?/gmu, "").replace(/\s+/gu, " ").trim();
  const [sentence] = comments.split(/(?<=[.?:])\s/u);
  const letters = [...sentence];
  return letters.length <= LETTERS_TOLD ? sentence : `${letters.slice(0, LETTERS_TOLD).join("").replace(/\s\S*$/u, "")} …`;
}

const titleOf = (name, text) => [name, aboutOf(text)].filter(Boolean).join(" · ");
const drawOption = (value, name, text) => element("option", { value }, titleOf(name, text));
const isListed = ({ topic, group }) => LISTED.has(topic) && (LISTED.get(topic) ?? group) === group;

/** All set-ups, `{ topic, group, name, text }`, in their order. */
const allOf = (topics) => topics.flatMap(({ topic, setups }) => setups.map((it) => ({ topic, ...it })));

/** Set-ups by their groups, as `[label, set-ups]`. */
function grouped(setups) {
  const groups = new Map();
  for (const it of setups) {
    const label = [words(it.topic), it.group].filter(Boolean).join(": ");
    groups.set(label, [...groups.get(label) ?? [], it]);
  }
  return [...groups];
}

/** The list, the dialog with all, and what is found there; `open` is told a set-up's topic and name, and `openLeft` one of the
    reader's own. */
export class Examples {
  constructor({ list, dialog, field, found }, topics, { open, openLeft }) {
    Object.assign(this, { list, dialog, field, found, topics, open, chosen: "" });
    this.setups = allOf(topics);
    list.append(...grouped(this.setups.filter(isListed)).map(([label, setups]) => element("optgroup", { label },
      setups.map(({ topic, name, text }) => drawOption(`${topic}/${name}`, words(name), text)))),
    element("option", { value: ALL }, `all ${this.setups.length} set-ups…`));
    this.drawLeft();
    list.addEventListener("change", () => this.choose(list.value, openLeft));
    field.addEventListener("input", () => this.drawFound());
    dialog.addEventListener("keydown", (event) => this.move(event));
  }

  choose(value, openLeft) {
    const [topic, name] = value.split("/");
    if (value === ALL) this.showAll();
    else if (topic === LEFT) openLeft(leftSetUps()[Number(name)]);
    else if (name) this.open(topic, name);
    this.show();
  }

  /** The set-up of a topic and a name: `{ text, tab, options, policy }`, or undefined. */
  find(topic, name) {
    const { tab, setups = [] } = this.topics.find((it) => it.topic === topic) ?? {};
    const found = setups.find((it) => it.name === name);
    return found && { tab, ...found };
  }

  /** Tells which one is open, or none. One that is not in the list is added to it while it is open. */
  show(chosen = this.chosen) {
    this.chosen = chosen;
    this.list.querySelector(".opened")?.remove();
    const [topic, name] = chosen.split("/");
    const found = this.setups.find((it) => it.topic === topic && it.name === name);
    if (found && !isListed(found)) {
      this.list.append(element("optgroup", { label: words(topic), class: "opened" }, drawOption(chosen, words(name), found.text)));
    }
    this.list.value = chosen;
  }

  /** Offers the set-ups that were changed and left, in front of the others. */
  drawLeft() {
    this.list.querySelector(".left")?.remove();
    const left = leftSetUps();
    if (left.length === 0) return;
    this.list.firstElementChild.after(element("optgroup", { label: LEFT, class: "left" },
      left.map(({ name, text }, at) => drawOption(`${LEFT}/${at}`, name, text))));
    this.show();
  }

  /** Shows all set-ups, with the field to search in. */
  showAll() {
    this.drawFound();
    this.dialog.showModal();
    this.field.select();
  }

  /** Draws the set-ups that have all words of the field in their topic, name or first comment. */
  drawFound() {
    const wanted = this.field.value.toLowerCase().split(/\s+/u).filter(Boolean);
    const has = ({ topic, group = "", name, text }) => {
      const told = `${words(topic)} ${group} ${words(name)} ${aboutOf(text)}`.toLowerCase();
      return wanted.every((word) => told.includes(word));
    };
    const found = this.setups.filter(has);
    this.found.replaceChildren(element("p", { role: "status", class: "dim" }, counted(found.length, "set-up")),
      ...grouped(found).flatMap(([label, setups]) => [element("h3", {}, label), element("ul", {}, setups.map((it) => this.drawOne(it)))]));
  }

  drawOne({ topic, name, text }) {
    return element("li", {}, button([words(name), " ", dim(aboutOf(text))], () => {
      this.dialog.close();
      this.open(topic, name);
    }, { class: "line" }));
  }

  /** Down and Up go through what is found, from the field on; Enter in the field opens the first. */
  move(event) {
    const all = [this.field, ...this.found.querySelectorAll("button")];
    const at = all.indexOf(document.activeElement);
    const step = { ArrowDown: 1, ArrowUp: -1 }[event.key];
    if (at < 0 || step === undefined && !(event.key === "Enter" && at === 0)) return;
    event.preventDefault();
    if (step) all[Math.max(0, Math.min(all.length - 1, at + step))].focus();
    else all[1]?.click();
  }
}
