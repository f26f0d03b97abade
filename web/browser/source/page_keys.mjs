// The keys of the page: they hold in it, and in the frame of the steps.
import { STEPS, TABS } from "./tabs.mjs";

const byId = (id) => document.getElementById(id);

export class PageKeys {
  constructor(page) {
    this.page = page;
  }

  /** The page's keys also hold in the frame of the steps; the frame's own keys of one letter hold where the page's do. */
  listenInFrame({ contentWindow, contentDocument }) {
    contentWindow.addEventListener("keydown", (event) => {
      if (!this.hasLetters && event.key.length === 1 && event.key !== " ") event.stopImmediatePropagation();
    }, true);
    this.listen(contentDocument);
  }

  /** Whether keys of one letter hold, outside of fields. */
  get hasLetters() {
    return byId("letters").checked;
  }

  /** The keys, on this page and in the frame of the steps. */
  listen(where) {
    where.addEventListener("keydown", (event) => {
      const { key, target } = event;
      const isTyping = target.closest("input, select, textarea, .CodeMirror") !== null;
      const action = event.ctrlKey || event.metaKey ? this.withControl(key)
        : this.actionOf(key, isTyping || where !== document && key === "?");
      // What the steps have done by a key of their own is not done once more.
      if (!action || event.altKey || event.defaultPrevented || document.querySelector("dialog[open]")) return;
      event.preventDefault();
      action();
    });
  }

  /** What a key does together with Ctrl. */
  withControl(key) {
    const print = this.page.tab === STEPS && !this.page.exercise.isOpen ? () => this.page.lecture.printStep() : null;
    return { Enter: () => this.page.run(), s: () => this.page.save(), p: print }[key];
  }

  /** What a key does; of one letter where its reader does not type. */
  actionOf(key, isTyping) {
    const { page } = this;
    if (key === "F1") return () => byId("keys").showModal();
    // What marks an exercise is not stopped: it has no report to stop for.
    if (key === "Escape" && page.program.isRunning && !page.exercise.isOpen) return () => page.stop();
    if (key === "Escape" && document.body.classList.contains("project") && !page.lecture.isStepsAlone) return () => page.lecture.project(false);
    if (isTyping || !this.hasLetters) return null;
    if (key === "?") return () => byId("keys").showModal();
    if (page.exercise.isOpen) return null;
    // The tenth tab has the key 0.
    const place = /^\d$/u.test(key) ? (Number(key) + 9) % 10 : TABS.length;
    if (place < TABS.length) return () => page.chooseAt(place);
    return { e: () => page.edit(), p: () => page.lecture.project(true), w: () => page.setWide(!document.body.classList.contains("wide")) }[key] ?? null;
  }
}
