// "What if": a call that the set-up does not have, asked for by pointing at slots in the drawings or by choosing them in lists. The page
// around this one has it run behind the calls so far.
import { OPERATIONS, callOf, wasAskedFor } from "./calls_to_ask.mjs";
import { button, dim, element } from "./element.mjs";
import { guardIn } from "./sentence.mjs";

/** CNodes of more slots than this have their full slots alone in the lists. */
const MOST_EMPTY = 64;
const RIGHTS = ["w", "r", "g", "p"];
const FIELDS = {
  label: { words: "label", value: "1" }, word: { words: "badge or guard", value: "7" }, kind: { words: "kind", value: "2" },
  size_bits: { words: "size_bits", value: "0" }, count: { words: "count", value: "1" },
};
const KINDS = [["0", "untyped"], ["1", "thread"], ["2", "endpoint"], ["4", "CNode"]];

const option = (value, words) => element("option", { value }, words);

/** A slot's place and its name, and what it holds. */
function wordsOfSlot(view, address, capability) {
  const { after, trace: { machine, names } } = view;
  const told = after.nodeAround(address)?.base === 0 ? names.get(String(address >> machine.slotBits)) ?? [] : [];
  const { kind, base, badge = "0" } = capability ?? {};
  const held = capability ? `${kind === "tcb" ? "thread" : kind} ${base}${badge === "0" ? "" : ` badge ${badge}`}` : "empty";
  return [after.nameOf(address) ?? `${address}.cspace`, told.length === 1 ? told[0] : "", "·", held].filter(Boolean).join(" ");
}

/** The slots of a state: the full ones, and the empty ones of small CNodes, each with its words. */
function slotsOf(view) {
  const { after, trace: { machine: { slotBits } } } = view;
  const full = new Map(after.slots.map(({ address, capability }) => [address, capability]));
  const empty = after.nodes.filter(({ slots }) => slots <= MOST_EMPTY)
    .flatMap(({ base, slots }) => Array.from({ length: slots }, (_, at) => base + (at << slotBits))).filter((address) => !full.has(address));
  return [...[...full].map(([address, capability]) => [address, wordsOfSlot(view, address, capability)]),
    ...empty.map((address) => [address, wordsOfSlot(view, address)])];
}

/** By which of some threads a call would be made here: the one that makes the next call, or made the last one, where it is ready; else the
    first that is. */
function threadFor({ step, trace: { steps } }, threads) {
  const ready = threads.filter(({ state }) => state === "ready").map(({ address }) => address);
  const wanted = [steps[step.number + 1]?.thread, step.thread].map(Number);
  return wanted.find((address) => ready.includes(address)) ?? ready[0] ?? threads[0]?.address;
}

/** Gives a list other options; what was chosen stays, where it is still there. */
function fill(list, options) {
  const { value } = list;
  list.replaceChildren(...options.map(([given, words]) => option(String(given), words)));
  if (options.some(([given]) => String(given) === value)) list.value = value;
}

export class WhatIf {
  /** `acts` has what is done with a call that is asked for, `ask`; and `keep` and `takeBack` with those that were. */
  constructor(section, acts) {
    Object.assign(this, { section, acts, view: null, pressed: "slot", fields: {}, yours: undefined, isThreadChosen: false });
    const list = (label) => element("select", { "aria-label": label });
    Object.assign(this, { thread: list("thread"), operation: list("operation"), slot: list("slot"), to: list("slot to fill") });
    this.rights = RIGHTS.map((right) => element("input", { type: "checkbox", value: right, checked: true }));
    this.more = element("span", { class: "asked-fields" });
    this.said = element("p", { class: "asked", role: "status" });
    [this.asker, this.keeper, this.taker, this.closer] = [["try it", () => this.ask()], ["keep", acts.keep], ["take back", acts.takeBack],
      ["close", () => this.toggle(false)]].map(([words, act]) => button(words, act));
    this.title = element("b", {}, "what if");
    this.slotLabel = element("span", {});
    this.toLabel = element("span", {});
    section.append(element("form", { class: "asking" }, this.title, this.thread, this.operation,
      element("label", {}, this.slotLabel, this.slot), element("label", {}, this.toLabel, this.to), this.more, this.asker, this.keeper, this.taker,
      this.closer), this.said);
    fill(this.operation, Object.keys(OPERATIONS).map((it) => [it, it]));
    section.querySelector("form").addEventListener("submit", (event) => {
      event.preventDefault();
      this.ask();
    });
    section.addEventListener("input", ({ target }) => this.changed(target));
    for (const part of ["slot", "to"]) this[part].addEventListener("focus", () => { this.pressed = part; });
    this.drawFields();
  }

  get isOpen() {
    return !this.section.hidden;
  }

  /** Opens the form, or closes it. */
  toggle(isOpen = !this.isOpen) {
    this.setOpen(isOpen);
    this.isThreadChosen = false;
    if (isOpen) {
      this.show(this.view);
      this.startAt(this.view.named);
      this.operation.focus();
    }
  }

  setOpen(isOpen) {
    this.section.hidden = !isOpen;
    document.body.toggleAttribute("data-asking", isOpen);
  }

  /** Takes what the form is for: what if, or the calls of an exercise with a goal, `yours`, of some threads or of all; for these it is
      open at first. And whether calls can be kept. */
  take(yours, canAsk, canKeep) {
    this.canKeep = canKeep;
    const isNew = this.yours === undefined && yours !== undefined;
    if (isNew || !canAsk) this.setOpen(isNew && canAsk);
    this.yours = yours;
    this.title.textContent = yours ? "your call" : "what if";
    this.section.setAttribute("aria-label", yours ? "Your call" : "What if");
  }

  /** Whether a thread makes calls that are asked for. */
  canCall(thread) {
    return this.yours?.threads?.includes(String(thread)) ?? true;
  }

  /** Begins with the slot that the call before was about, where it named one. */
  startAt({ source, target, invoked }) {
    const slot = [source, target, invoked].find((address) => address !== null && address !== undefined);
    if (slot !== undefined) this.slot.value = String(slot);
    this.tell();
  }

  /** Has the lists show the state of a view, and by which thread the call is made, until one is chosen. */
  show(view) {
    this.view = view;
    if (!this.isOpen || view === null) return;
    const { names } = view.trace;
    const threads = view.state.sorted("thread").filter(({ address }) => this.canCall(address));
    fill(this.thread, threads.map(({ address, state }) =>
      [address, [address, ...(names.get(String(address)) ?? []), ...(state === "ready" ? [] : [`(${state})`])].join(" ")]));
    if (!this.isThreadChosen) this.thread.value = String(threadFor(view, threads));
    const slots = slotsOf(view);
    fill(this.slot, slots);
    fill(this.to, slots);
    const isAsked = wasAskedFor(view.trace, view.step.number);
    this.keeper.hidden = !isAsked || !this.canKeep;
    this.taker.hidden = !isAsked;
    this.tell();
  }

  changed(target) {
    if (target === this.operation) this.drawFields();
    if (target === this.thread) this.isThreadChosen = true;
    this.tell();
  }

  /** The fields that the operation has. */
  drawFields() {
    const { slot, to, fields = [] } = OPERATIONS[this.operation.value];
    this.slotLabel.textContent = slot;
    this.toLabel.textContent = to ?? "";
    this.to.closest("label").hidden = !to;
    this.pressed = "slot";
    this.fields = Object.fromEntries(fields.filter((it) => it !== "rights").map((key) => [key, this.field(key)]));
    const rights = fields.includes("rights") ? element("fieldset", {}, element("legend", {}, "rights"),
      this.rights.map((box) => element("label", {}, box, box.value))) : null;
    this.more.replaceChildren(...[rights, ...Object.entries(this.fields).map(([key, field]) => element("label", {}, FIELDS[key].words, field))].filter(Boolean));
  }

  field(key) {
    // A new root of a space has no guard of its own at first.
    const value = key === "word" && this.operation.value === "set_space" ? "0" : FIELDS[key].value;
    if (key !== "kind") return element("input", { type: "text", size: "5", value, "aria-label": FIELDS[key].words });
    const made = element("select", { "aria-label": FIELDS.kind.words }, KINDS.map(([value, words]) => option(value, words)));
    made.value = FIELDS.kind.value;
    return made;
  }

  /** Takes a slot that was pressed in a drawing: first the one that the operation is about, then the one to fill. */
  press(slot) {
    const list = this[this.pressed];
    list.value = String(slot);
    const { to } = OPERATIONS[this.operation.value];
    this.pressed = to && this.pressed === "slot" ? "to" : "slot";
    this.tell();
  }

  /** A thread that was pressed makes the call. */
  pressThread(thread) {
    if (this.canCall(thread)) {
      this.isThreadChosen = true;
      this.thread.value = String(thread);
    }
    this.tell();
  }

  /** The call as it is written, or why it cannot be. */
  get call() {
    const [operation, thread] = [this.operation.value, Number(this.thread.value)];
    const rights = this.rights.reduce((sum, { checked }, place) => sum + (checked ? 1 << place : 0), 0);
    const values = Object.fromEntries(Object.entries(this.fields).map(([key, { value }]) => [key, value.trim()]));
    const to = OPERATIONS[operation].to ? Number(this.to.value) : undefined;
    return callOf(this.view.after, { operation, thread, slot: Number(this.slot.value), to, fields: { ...values, rights } });
  }

  /** A key of the call with its value; a guard word with the guard that it sets, too. */
  inWords([key, value]) {
    const { after, trace: { machine } } = this.view;
    const isGuard = key === "word" && Number(value) !== 0
      && (this.operation.value === "set_space" || after.state.slot.get(Number(this.slot.value))?.capability.kind === "cnode");
    return `${key} = ${value}${isGuard ? ` (guard ${guardIn(value.replaceAll('"', ""), machine)})` : ""}`;
  }

  /** Says the call that would be made. */
  tell(fault) {
    const told = fault === undefined ? this.call : { fault };
    this.asker.disabled = told.fault !== undefined && fault === undefined;
    const { to } = OPERATIONS[this.operation.value];
    const named = (list) => list.selectedOptions[0]?.textContent.split(" · ")[0] ?? "";
    const said = `${this.thread.selectedOptions[0]?.textContent.replace(/ \(\w+\)$/u, "")} asks to ${this.operation.value} ${this.slotLabel.textContent} ${named(this.slot)}`
      + `${to ? `, ${to} ${named(this.to)}` : ""}.`;
    this.said.replaceChildren(said, " ", told.fault ?? dim((told.pairs ?? []).map((pair) => this.inWords(pair)).join(", ")));
    this.said.classList.toggle("fault", told.fault !== undefined);
  }

  ask() {
    const { pairs } = this.call;
    if (pairs) this.acts.ask(pairs);
  }
}
