// Where the page begins, and what its address leads to: a set-up in the address, what was kept, or for who was never here an example.
import { REPORT, STEPS, TABS } from "./tabs.mjs";
import { TooLong, readFragment } from "./share.mjs";
import { keptState } from "./kept.mjs";

const byId = (id) => document.getElementById(id);
const FIRST_EXAMPLE = ["examples", "send_then_receive"];
const NARROW_WINDOW = "(max-width: 800px)";

export class Addresses {
  constructor(page) {
    Object.assign(this, { page, read: "", frame: undefined, isReading: false });
    window.addEventListener("hashchange", () => this.openAddress());
  }

  /** Opens a set-up that Back or Forward leads to. */
  openVisited(setup, chosen) {
    const { page } = this;
    const opened = page.openAgain(setup);
    if (!setup.isChanged) page.examples.show(chosen);
    return opened;
  }

  /** Opens the set-up of the page's address, if it has one that was not read before: whether it has, and what is wrong with it. */
  async openShared() {
    const { page } = this;
    const fragment = location.hash;
    let setup = null;
    this.isReading = true;
    try {
      if (fragment !== this.read) setup = await readFragment(fragment);
    } catch (fault) {
      const why = fault instanceof TooLong ? "it is longer than 8 MiB" : "a part of it is missing";
      return { isOpened: false, fault: `The address has a set-up that cannot be read: ${why}. What you see is another one.` };
    } finally {
      this.isReading = false;
    }
    if (setup === null) return { isOpened: false };
    this.read = fragment;
    const { text, name, tab, options, call, policy } = setup;
    page.openAgain({ text, name, tab, options: { [tab]: options }, policy });
    page.firstCall = call;
    return { isOpened: true };
  }

  /** Opens the set-up of an address that is put in place of the page's own. */
  async openAddress() {
    const { page } = this;
    const { fault } = await this.openShared();
    if (fault) page.warn(fault);
  }

  /** Opens what the address has, or what was kept, or an example. */
  async begin() {
    const { page } = this;
    // A lecture's own page has this one in a frame, by the address ?embed: without its head and foot; by ?embed=steps the steps alone.
    const embedded = new URLSearchParams(location.search).get("embed");
    document.body.classList.toggle("embed", embedded !== null);
    page.lecture.isStepsAlone = embedded === "steps";
    this.frame = embedded === null ? undefined : location.hash;
    const kept = keptState(this.frame);
    // A reload keeps what was made of a shared set-up. Who opens the address anew sees what the address has.
    const [{ type } = {}] = performance.getEntriesByType("navigation");
    this.read = type === "navigate" ? "" : kept.read ?? "";
    page.tab = page.lecture.isStepsAlone ? STEPS : TABS.find(({ name }) => name === kept.tab) ?? REPORT;
    byId("letters").checked = kept.hasLetters ?? true;
    page.drawChosen();
    const { isOpened, fault } = await this.openShared();
    if (isOpened) {
      if (kept.isChanged && kept.text !== page.asOpened) page.say(page.wayBackTo(kept));
    } else if (typeof kept.text === "string" && kept.text !== "") {
      page.openAgain(kept);
      if (kept.isChanged) page.asOpened = "";
      page.keep();
    } else this.welcome();
    if (fault) page.warn(fault);
    if (page.lecture.isStepsAlone) page.lecture.project(true);
  }

  /** Who was never here sees what a call does, drawn; on a phone without the set-up above it. */
  welcome() {
    const { page } = this;
    page.tab = STEPS;
    page.openExample(...FIRST_EXAMPLE);
    page.firstCall = 1;
    page.isFirstView = matchMedia(NARROW_WINDOW).matches;
    page.setWide(page.isFirstView);
    byId("welcome").hidden = false;
  }
}
