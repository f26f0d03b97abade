// Elements of the page. Whatever a trace says comes in as a text node, never as markup: the page's policy forbids the
// browser to make markup of texts at all.

/** Makes an element. An attribute that is undefined or false is left out; a child is a node, a text, a list of
    children, or null. */
export function element(kind, attributes, ...children) {
  const made = document.createElement(kind);
  for (const [name, value] of Object.entries(attributes)) {
    if (value !== undefined && value !== false) made.setAttribute(name, value === true ? "" : value);
  }
  made.append(...children.flat(Infinity).filter((child) => child !== null && child !== undefined && child !== ""));
  return made;
}

/** A button with what it does when it is pressed. */
export function button(words, act, attributes = {}) {
  const made = element("button", { type: "button", ...attributes }, words);
  made.addEventListener("click", act);
  return made;
}

/** A button in the corner of a drawing that saves it. */
export const drawSaver = (words, save) => button("⤓", save, { class: "saver", title: words, "aria-label": words });

/** A text in dim letters. */
export const dim = (...children) => element("span", { class: "dim" }, ...children);

/** A number or a word of a trace, in letters of equal width. */
export const code = (...children) => element("b", { class: "code" }, ...children);

/** A sign that a screen reader speaks as a word. */
export const sign = (shown, word) => element("i", { class: "sign", role: "img", "aria-label": word }, shown);

/** A heading with a remark behind it. */
export const heading = (title, ...remark) => element("h2", {}, title, " ", element("small", {}, ...remark));

/** Opens a fold, and draws its rows where they are not drawn. */
export function unfold(folded) {
  if (!folded.querySelector(":scope > .unfolded")) {
    folded.append(element("div", { class: "unfolded" }, folded.drawRows()));
  }
  folded.open = true;
}

/** Rows that are drawn only when they are asked for, behind a text. */
export function foldBehind(text, draw) {
  const folded = element("details", { class: "fold" }, element("summary", {}, text));
  folded.drawRows = draw;
  folded.addEventListener("toggle", () => folded.open && unfold(folded));
  return folded;
}

/** Rows that come behind others, and are drawn only when they are asked for. */
export const fold = (count, what, draw) => foldBehind(`${count} more ${what}`, draw);

/** Puts an element at a part of a bar, from 0 to 1; the page's policy allows no styles in attributes. */
export function place(made, left, width) {
  made.style.left = `${(100 * left).toFixed(3)}%`;
  made.style.width = `max(3px, ${(100 * width).toFixed(3)}%)`;
  return made;
}

/** `1 slot`, `2 slots`. */
export const counted = (count, noun) => `${count} ${noun}${count === 1 ? "" : "s"}`;
