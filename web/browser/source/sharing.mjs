// What is shared: an address that has the set-up in it, or a file; the set-up itself, or as an exercise with questions in place of
// what its calls expect.
import { asExercise, wordsThatTell } from "./exercise_text.mjs";
import { POLICY, REPORT, STEPS } from "./tabs.mjs";
import { counted, dim, element } from "../../page/source/element.mjs";
import { fragmentOf } from "./share.mjs";

const byId = (id) => document.getElementById(id);

/** The page's address for others. That of a page from a disk would hold on this machine alone, and tell its folders: it has
    the address at which it is published, where it tells one, and else none. */
function homeOf({ protocol, href }) {
  if (protocol !== "file:") return href.split("#")[0];
  return document.querySelector("meta[name=sel4sim-home]").content;
}

/** The comment above a call that asks, with a box to tick by which it is hidden until the answers are shown. */
function drawComment({ number, words, isTelling }, changed) {
  const box = element("input", { type: "checkbox", value: String(number) });
  box.addEventListener("change", changed);
  return element("li", {}, element("label", { class: "tick" }, box, "hide"), element("span", { class: isTelling ? "telling" : "" },
    dim(`call ${number} `), words));
}

export class Sharing {
  constructor(page) {
    this.page = page;
    byId("as-exercise").addEventListener("click", () => this.ask());
    byId("save-shared").addEventListener("click", () => page.saveText(this.text, page.name));
    byId("copy-address").addEventListener("click", () => navigator.clipboard?.writeText(byId("address").value));
  }

  get isExercise() {
    return byId("as-exercise").checked;
  }

  /** What is shown of the set-up: the tab, its options, and of the steps the call; nothing of an exercise. */
  get place() {
    const { exercise, tab, options: { values }, shownCall, policy } = this.page;
    if (exercise.isOpen || this.isExercise) return {};
    return { tab: tab === REPORT ? "" : tab.name, options: values[tab.name], call: tab === STEPS ? shownCall : 0,
      policy: tab === POLICY ? policy.text : "" };
  }

  /** The text that is shared. */
  get text() {
    const { text } = this.page.editor;
    const hidden = [...byId("told-words").querySelectorAll("input:checked")].map((it) => Number(it.value));
    return this.isExercise ? asExercise(text, hidden) : text;
  }

  async open() {
    const { editor: { text }, exercise } = this.page;
    byId("as-exercise").checked = false;
    byId("as-exercise").closest("p").hidden = exercise.isOpen || asExercise(text) === text;
    this.drawWords([]);
    await this.draw();
    byId("shared").showModal();
    byId("address").select();
  }

  /** Shows, before an exercise is made, the comments that will stand above its questions: first those that may tell an answer. */
  ask() {
    this.drawWords(this.isExercise ? wordsThatTell(this.page.editor.text) : []);
    return this.draw();
  }

  drawWords(told) {
    const telling = told.filter(({ isTelling }) => isTelling).length;
    byId("told").hidden = told.length === 0;
    byId("told-warning").textContent = telling > 0 ? `${counted(telling, "comment")} may tell an answer: those that are marked.` : "";
    byId("told-words").replaceChildren(...told.map((it) => drawComment(it, () => this.draw())));
  }

  /** Shows an address of what is open; where the page has none for others, the part behind it. */
  async draw() {
    const home = homeOf(location);
    byId("from-disk").hidden = home !== "";
    byId("address").value = `${home}${await fragmentOf(this.text, this.page.name, this.place)}`;
  }
}
