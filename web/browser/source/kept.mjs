// What is kept in the browser over a reload: the set-up and its name, the tab, which shared address was read, and the
// set-ups that were changed and left for others. Each window keeps its own, and a new one begins with what another kept last. A
// page in the frame of another one keeps its own, by its address. A browser that keeps nothing, as in a private window, leaves
// all of it empty.

const STATE = "sel4sim.page";
const FRAMED = "sel4sim.framed";
/** So many pages in frames are kept. */
const MOST_FRAMED = 20;
const LEFT = "sel4sim.left";
/** So many set-ups that were left are kept. */
const MOST_LEFT = 8;

function readFrom(storage, name) {
  try {
    return JSON.parse(window[storage].getItem(name)) ?? {};
  } catch {
    return {};
  }
}

function writeTo(storage, name, value) {
  try {
    window[storage].setItem(name, JSON.stringify(value));
  } catch {
    // A private window, or a set-up that is too long: it lasts as long as the page.
  }
}

/** What was kept by a name, or an empty object. */
export const keptAt = (name) => readFrom("localStorage", name);

/** Keeps a value by a name, in place of the one before it, where the browser keeps anything. */
export const keepAt = (name, value) => writeTo("localStorage", name, value);

const framedStates = () => keptAt(FRAMED).states ?? [];

/** What tells this window from others. */
function windowId() {
  const { id = crypto.randomUUID?.() ?? String(Math.random()) } = readFrom("sessionStorage", "sel4sim.window");
  writeTo("sessionStorage", "sel4sim.window", { id });
  return id;
}

/** The state of the page as it was kept, by this window or, in a new one, by another; of a page in a frame, by its `address`
    there. */
export function keptState(address) {
  if (address !== undefined) return framedStates().find((it) => it.address === address)?.state ?? {};
  const own = readFrom("sessionStorage", STATE);
  return own.text === undefined ? keptAt(STATE) : own;
}

/** Keeps the state of the page. What another window kept last, if it was changed, stays among what was left. */
export function keepState(state, address) {
  if (address !== undefined) {
    keepAt(FRAMED, { states: [{ address, state }, ...framedStates().filter((it) => it.address !== address)].slice(0, MOST_FRAMED) });
    return;
  }
  const [id, last] = [windowId(), keptAt(STATE)];
  if (last.window !== undefined && last.window !== id && last.isChanged && last.text !== state.text) keepLeft(last);
  writeTo("sessionStorage", STATE, state);
  keepAt(STATE, { ...state, window: id });
}

/** The set-ups that were changed and left for others: first the one that was left last. */
export const leftSetUps = () => keptAt(LEFT).setups ?? [];

/** Keeps a set-up that was changed and is left: each text once, and of one that another window is still changing the last. */
export function keepLeft(setup) {
  const isSame = ({ text, window: other, name }) => text === setup.text || setup.window !== undefined && other === setup.window && name === setup.name;
  keepAt(LEFT, { setups: [setup, ...leftSetUps().filter((it) => !isSame(it))].slice(0, MOST_LEFT) });
}
