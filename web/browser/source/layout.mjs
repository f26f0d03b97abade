// A layout that is capDL text or a .system file: the program makes a set-up of it, which takes its place in the editor.
import { element } from "../../page/source/element.mjs";

/** Whether a file of that name has a layout. */
export const isLayout = (name) => /\.(?:cdl|system)$/iu.test(name);

/** The name of the set-up that is made of a layout. */
export const setupNameOf = (name) => name.replace(/\.(?:cdl|system)$/iu, ".toml");

/** The words that make a set-up of a layout; the rights are those that are taken where a .system file says none. */
export const importWords = (name, rights) => ["import", ...(rights === "" ? [] : ["--rights", rights]), name];

/** A choice of the rights that are taken where a .system file says none, all of them without the option; null of another layout. `give` is
    told what is chosen. */
export function drawRights(name, rights, give) {
  if (!/\.system$/iu.test(name)) return null;
  const about = "The rights that are taken where the file says none";
  const made = element("select", { id: "import-rights", title: about, "aria-label": about },
    [["", "all"], ["least", "least"]].map(([value, words]) => element("option", { value }, words)));
  made.value = rights;
  made.addEventListener("change", () => give(made.value));
  return element("label", { class: "field", title: about }, " --rights", made);
}

/** What is said of a set-up that was made of a layout, with what standard error says was left out, and the choice of rights. */
export function drawMade(name, errors, back, rights) {
  const left = errors === "" ? "" : element("details", {}, element("summary", {}, "what the layout has and the set-up has not"),
    element("pre", {}, errors));
  return [`The calls of this set-up make the layout ${name}. `, back, rights, left];
}
