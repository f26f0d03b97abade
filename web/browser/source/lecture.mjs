// The page in a lecture: the steps in the whole window, alone in the frame of another page, and on paper.
import { STEPS } from "./tabs.mjs";

export class Lecture {
  constructor(page) {
    Object.assign(this, { page, isStepsAlone: false });
  }

  /** Shows the steps in the whole window, or the page again. */
  project(isWhole) {
    const { page } = this;
    if (isWhole && page.tab !== STEPS) page.choose(STEPS);
    document.body.classList.toggle("project", isWhole);
    if (page.steps.isLoaded) this.drawProjected();
    if (isWhole && page.steps.isLoaded) page.steps.focus();
    page.editor.refresh();
  }

  /** The steps have the name of the set-up where nothing else tells it; alone in a frame they have the drawings and no list. */
  drawProjected() {
    const { page } = this;
    const { body } = page.steps.frame.contentDocument;
    body.toggleAttribute("data-projected", document.body.classList.contains("project"));
    body.toggleAttribute("data-drawings", this.isStepsAlone);
  }

  /** Prints the step that is shown: it stands in a document of its own. */
  printStep() {
    const { page } = this;
    if (page.steps.isLoaded) page.steps.frame.contentWindow.print();
  }
}
