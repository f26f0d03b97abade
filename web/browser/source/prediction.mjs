// A prediction: what a reader says a call will be answered, by choosing and not by spelling.
import { element } from "../../page/source/element.mjs";
import { PARTS } from "./exercise_text.mjs";
import { REFUSALS, refusalInWords } from "../../page/source/refusals.mjs";

/** What the operations on messages can be answered; any other one is done or refused. */
const MESSAGES = {
  send: ["waiting", "delivered"], nbsend: ["dropped", "delivered"], recv: ["waiting", "delivered"], nbrecv: ["empty", "delivered"],
};
const MEANINGS = {
  done: "done", waiting: "the thread waits", delivered: "a message is delivered", dropped: "the message is dropped",
  empty: "nothing is there to receive", refused: "refused",
};
const option = (value, text) => element("option", { value }, text);

/** What is chosen from to tell a part of a delivery: threads or endpoints; undefined for what is typed. */
const choicesOf = (part, { threads, endpoints }) => ({ endpoint: endpoints, from: threads, to: threads })[part];

/** Fields in which a call's answer is predicted; `changed` is told of each change. `objects` has the threads and endpoints
    to choose from, as `[value, words]`; where it has none of a kind, the address is typed. */
export class Prediction {
  constructor({ number, pairs, asked }, objects, changed) {
    Object.assign(this, { number, objects, changed, fields: new Map() });
    this.parts = asked.last ? PARTS.slice(0, PARTS.indexOf(asked.last) + 1) : [];
    this.kind = this.list("answer", "what is it answered?", [...(MESSAGES[pairs.get("op")] ?? ["done"]), "refused"]
      .map((it) => [it, MEANINGS[it]]));
    this.code = this.list("reason", "why is it refused?", REFUSALS.map(([code]) => [code, `${code} · ${refusalInWords(code)}`]));
    this.more = element("span", { class: "prediction-more" });
    this.element = element("div", { class: "prediction" }, this.kind, this.more);
  }

  list(name, question, options) {
    const made = element("select", { "aria-label": `Call ${this.number}: ${question}`, "data-field": name },
      option("", question), options.map(([value, words]) => option(value, words)));
    made.addEventListener("change", () => this.given());
    return made;
  }

  /** The field of a part of a delivered answer. */
  field(part) {
    if (!this.fields.has(part)) this.fields.set(part, this.made(part));
    return this.fields.get(part);
  }

  made(part) {
    const choices = choicesOf(part, this.objects);
    if (!choices) return this.typed(part);
    const made = this.list(part, part === "endpoint" ? "at which endpoint?" : `${part} whom?`, choices);
    if (choices.length === 1) [[made.value]] = choices;
    return made;
  }

  typed(part) {
    const made = element("input", { type: "text", size: "5", inputmode: "numeric", autocomplete: "off", "data-field": part,
      "aria-label": `Call ${this.number}: ${part}` });
    made.addEventListener("input", () => this.given());
    element("label", { class: "field" }, part, made);
    return made;
  }

  /** The fields that belong to what is chosen. */
  get wanted() {
    if (this.kind.value === "refused") return [this.code];
    return this.kind.value === "delivered" ? this.parts.map((part) => this.field(part)) : [];
  }

  given() {
    const fields = this.wanted.map((it) => it.closest("label") ?? it);
    const isSame = fields.length === this.more.children.length && fields.every((it, at) => this.more.children[at] === it);
    if (!isSame) this.more.replaceChildren(...fields);
    this.changed();
  }

  /** The answer as the report spells it, or "" where a part is not given yet. */
  get text() {
    const { value } = this.kind;
    if (value === "refused") return this.code.value && `refused ${this.code.value}`;
    if (value !== "delivered") return value;
    const parts = this.parts.map((part) => [part, this.field(part).value.trim()]);
    if (parts.some(([, it]) => it === "")) return "";
    return ["delivered", ...parts.map(([part, it]) => (part === "endpoint" ? it : `${part} ${it}`))].join(" ");
  }

  /** Takes back an answer that was kept. */
  set text(text) {
    const [kind, first = "", ...rest] = text.split(" ");
    this.kind.value = kind;
    if (kind === "refused") this.code.value = first;
    const values = kind === "delivered" ? [first, ...rest.filter((_, at) => at % 2 === 1)] : [];
    this.parts.slice(0, values.length).forEach((part, at) => {
      this.field(part).value = values[at];
    });
    this.given();
  }

  /** The answer in words, with the names of threads. */
  get words() {
    const { value } = this.kind;
    if (value === "refused") return `refused ${this.code.selectedOptions[0].textContent}`;
    if (value !== "delivered") return MEANINGS[value] ?? "";
    return ["delivered", ...this.parts.map((part) => {
      const field = this.field(part);
      return `${part === "endpoint" ? "at" : part} ${field.selectedOptions?.[0].textContent ?? field.value}`;
    })].join(" ");
  }

  set isOpen(isOpen) {
    for (const it of this.element.querySelectorAll("select, input")) it.disabled = !isOpen;
  }

  focus() {
    this.kind.focus();
  }
}
