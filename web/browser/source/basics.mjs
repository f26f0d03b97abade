// Small things that several modules of the page need.
import { button } from "../../page/source/element.mjs";

export const decoded = (bytes) => new TextDecoder().decode(bytes);

/** A file name as a word of a command line. */
export const quoted = (word) => (/^[\w@%+=:,./-]+$/u.test(word) ? word : `'${word.replace(/'/gu, "'\\''")}'`);

/** A button that looks like a link; a screen reader tells it by a label, where it has one. */
export const link = (words, act, label) => button(words, act, { class: "link", "aria-label": label });
