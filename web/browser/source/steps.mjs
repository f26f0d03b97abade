// The page of a trace in a frame of its own: it is told each trace anew and keeps its place, and tells the call that it shows.
import { element } from "../../page/source/element.mjs";

export class Steps {
  /** `viewer` is the page of the trace. `listen` is told the frame when its page is there, and `shown` the number of
      each call that it shows. Where there is `asked`, a call can be asked for there: it is told what is to be done with it. */
  constructor({ viewer, title, listen, shown, asked }) {
    this.frame = element("iframe", { title });
    this.frame.srcdoc = viewer;
    this.told = null;
    this.loaded = null;
    this.frame.addEventListener("load", () => {
      this.loaded = this.frame.contentWindow;
      listen(this.frame);
      this.tell(this.told);
    });
    window.addEventListener("message", ({ source, data }) => {
      if (source !== this.frame.contentWindow) return;
      if (Number.isInteger(data.shown)) shown(data.shown);
      else if (data.asked) asked?.(data);
    });
    this.canAsk = asked !== undefined;
  }

  /** Whether the page of the trace is there. Out of the document the frame has none; put back, it loads anew and is told then. */
  get isLoaded() {
    return this.loaded !== null && this.loaded === this.frame.contentWindow;
  }

  /** Shows a trace at a call, or at the call that was shown before where none is given; `how` says what can be done with it. */
  show(trace, name, number, how = { canAsk: this.canAsk }) {
    this.told = { trace, name, number, ...how };
    this.tell(this.told);
  }

  /** Shows the same trace again, at a call. */
  showAgain(number) {
    this.told = { ...this.told, number };
    this.tell(this.told);
  }

  /** Shows another call of the same trace. */
  go(number) {
    this.tell({ number });
  }

  tell(told) {
    if (this.isLoaded && told) this.loaded.postMessage(told, "*");
  }

  /** Puts the focus on the list of calls, or where there is none in sight on the state. */
  focus() {
    if (!this.isLoaded) return;
    const [list, main] = ["list", "main"].map((id) => this.frame.contentDocument.getElementById(id));
    (list.offsetParent === null ? main : list).focus();
  }
}
