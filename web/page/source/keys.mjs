// The keys. Left and right, j and k step wherever the focus is, but for fields that use them themselves; the keys that
// also scroll or press a button do so only where the focus is on the list of calls or on nothing.
import { isMissed, isRevoke } from "./calls.mjs";

const FAR = 10;

const ON = ["ArrowRight", "j"];
const STEPS = { ArrowLeft: (number) => number - 1, k: (number) => number - 1 };

const STEPS_IN_LIST = {
  ArrowUp: (number) => number - 1,
  PageDown: (number) => number + FAR, PageUp: (number) => number - FAR,
  Home: () => 0, End: (_, last) => last,
};

/** What a key does, or null: `page` has `number`, `last`, `player`, and what the keys call. */
function actionOf(event, page, { list, main, find, keys }) {
  const { key, target } = event;
  const inList = target === list || target === document.body;
  if (ON.includes(key) || inList && key === "ArrowDown") return () => page.goOn(page.number + 1);
  const step = STEPS[key] ?? (inList ? STEPS_IN_LIST[key] : undefined);
  if (step) return () => page.show(step(page.number, page.last));
  if (key === " ") return inList || target === main ? () => page.player.toggle() : null;
  const actions = {
    n: () => page.showNext(isMissed), r: () => page.showNext(isRevoke), "/": () => find.focus(),
    "?": () => keys.showModal(), f: () => page.goRound(), h: () => page.toggleHiding(), i: page.canAsk ? () => page.whatIf.toggle() : null,
    Escape: page.alone ? () => page.showAlone() : null,
  };
  return actions[key] ?? null;
}

/** Lets the keys step through a run; any key that does something stops its playing. */
export function listenToKeys(page, parts) {
  document.addEventListener("keydown", (event) => {
    const { ctrlKey, metaKey, altKey, target } = event;
    if (ctrlKey || metaKey || altKey || parts.keys.open || target.matches("input, select, textarea")) return;
    const action = actionOf(event, page, parts);
    if (action === null) return;
    if (event.key !== " ") page.player.stop();
    action();
    event.preventDefault();
  });
  parts.find.addEventListener("keydown", (event) => {
    if (event.key === "Enter" && parts.find.value) page.find(parts.find.value, event.shiftKey ? -1 : 1);
  });
}
