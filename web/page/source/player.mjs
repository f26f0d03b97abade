// Plays a run: one call on after another, until the last one or until it is stopped.

const MILLISECONDS = 1500;

/** Plays `page`, which has `number`, `last`, `isAsked` and `goOn`, and tells by a button whether it does. */
export class Player {
  constructor(button, page) {
    Object.assign(this, { button, page, timer: null });
  }

  toggle() {
    if (this.timer === null) this.start();
    else this.stop();
  }

  start() {
    if (this.page.number >= this.page.last && !this.page.isAsked) return;
    this.timer = setInterval(() => this.step(), MILLISECONDS);
    this.tell("❚❚", "Stop playing");
  }

  stop() {
    clearInterval(this.timer);
    this.timer = null;
    this.tell("▶", "Play the calls");
  }

  step() {
    this.page.goOn(this.page.number + 1);
    if (this.page.number >= this.page.last && !this.page.isAsked) this.stop();
  }

  tell(sign, name) {
    this.button.textContent = sign;
    this.button.setAttribute("aria-label", name);
    this.button.title = `${name} (Space)`;
  }
}
