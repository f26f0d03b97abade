// The state beside an exercise, for its print: pictures of the forest and of the capability spaces, in the colours of paper.
import { element } from "../../page/source/element.mjs";
import { pictureOf } from "../../page/source/picture.mjs";

const PARTS = ["forest", "spaces"];
/** The colours are those of paper while an element has this class. */
const PAPER = "paper";

/** Draws into an element what the steps in a frame show at their last call; `markup` makes markup that the page's policy lets
    pass. */
export function drawPrinted(into, { contentDocument }, { markup, title }) {
  const root = contentDocument.documentElement;
  const range = contentDocument.getElementById("range");
  const { value } = range;
  const show = (number) => {
    range.value = number;
    range.dispatchEvent(new Event("input"));
  };
  show(range.max);
  root.classList.add(PAPER);
  const pictures = PARTS.map((id) => pictureOf(contentDocument.getElementById(id), `${title}: ${id}`));
  root.classList.remove(PAPER);
  show(value);
  const drawn = pictures.map((text) => new DOMParser().parseFromString(markup(text), "image/svg+xml").documentElement);
  into.replaceChildren(element("h2", {}, title), ...drawn.map((it) => document.importNode(it, true)));
}
