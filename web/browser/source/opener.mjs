// Buttons that each open a set-up which the program writes.
import { button, element } from "../../page/source/element.mjs";

/** Draws such buttons, each `{ words, title, open }`. Where the program writes no set-up, what it says in its place, which `open`
    gives, stands behind them. */
export function drawOpeners(openers) {
  const told = element("span", { class: "code", role: "status" });
  const buttons = openers.map(({ words, title, open }) => button(words, async () => {
    told.textContent = "";
    told.textContent = await open();
  }, { class: "opener", title }));
  return [buttons, " ", told];
}
