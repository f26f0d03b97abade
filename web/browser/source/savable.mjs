// A drawing with a button in its corner that has it saved as a picture.
import { drawSaver, element } from "../../page/source/element.mjs";

/** A drawing, with a button by which it is saved. */
export const savable = (drawing, save) => element("div", { class: "savable" }, drawing, drawSaver("Save this drawing, as SVG", save));
