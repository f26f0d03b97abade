// The browser's history: each set-up that a reader chooses is an entry of it, so that Back leads to the one before.

export class Visits {
  /** `open` is told the set-up of an entry that Back or Forward leads to, and which example of the list it is, if any. */
  constructor(page, open) {
    this.page = page;
    window.addEventListener("popstate", ({ state }) => state?.setup && open(state.setup, state.chosen));
  }

  /** Opens another set-up as an entry of its own; the entry that is left has what was open. */
  go(open) {
    this.keep("replaceState");
    const opened = open();
    this.keep("pushState");
    return opened;
  }

  keep(way) {
    const { setup, examples: { chosen } } = this.page;
    try {
      history[way]({ setup, chosen }, "");
    } catch {
      // A set-up that is too long for an entry: Back leaves the page, as it does in a browser that allows none.
    }
  }
}
