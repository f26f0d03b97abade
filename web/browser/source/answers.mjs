// What the program answered, as the page shows it: in the panel of its tab, in the margin of the editor, and as a status in words.
import { REPORT, TABS } from "./tabs.mjs";
import { callsOf } from "./report.mjs";
import { decoded, link } from "./basics.mjs";
import { element } from "../../page/source/element.mjs";
import { lineOfFault, placesOf, wordsTold } from "./places.mjs";
import { toldOf } from "./policy.mjs";
import { wordsOf } from "./answer.mjs";

const byId = (id) => document.getElementById(id);
const WHY = TABS.find(({ name }) => name === "why");
/** The exit statuses of a set-up and of a command line that are refused. */
const REFUSED = [2, 4];
/** Standard error tells of `why`. */
const TELLS_WHY = /sel4sim why/u;
/** So many calls are marked in the margin, and of the others those that are not met. */
const CALLS_MARKED = 3000;

/** The mark of a call in the margin; its title has the reason of a refusal, where that is known. */
function markOf({ number, reply, outcome }, reason = "") {
  const [look, shown] = outcome === "met" ? ["met", "✓"] : outcome ? ["missed", "✗"]
    : reply.startsWith("refused") ? ["refused", "!"] : ["done", "·"];
  return { look, shown, words: `call ${number}: ${reply}${outcome ? ` (${outcome})` : ""}${reason && `\n${reason}`}` };
}

/** The first fault that standard error tells. */
const firstFault = ({ errors }) => wordsTold(decoded(errors))[0]?.words ?? "";

export class Answers {
  constructor(page) {
    Object.assign(this, { page, shown: null });
  }

  /** Puts into the margin what each call was answered, or where the set-up is at fault. */
  mark(text, { output, errors }, reasons) {
    const { page } = this;
    page.editor.clear();
    const report = decoded(output);
    const line = lineOfFault(text, report, decoded(errors));
    if (line >= 0) {
      const [first, ...others] = wordsTold(decoded(errors));
      page.editor.fault(line, first?.words ?? report.trim());
      others.filter((told) => told.line >= 0).forEach((told) => page.editor.fault(told.line, told.words));
      return;
    }
    const marked = callsOf(report).filter(({ outcome }, at) => at < CALLS_MARKED || outcome.startsWith("not met"));
    const { call } = placesOf(text, marked.at(-1)?.number ?? 0);
    page.editor.markAll(marked.filter(({ number }) => call[number - 1])
      .map((told) => ({ line: call[told.number - 1].line, ...markOf(told, reasons.get(told.number)) })));
  }

  /** Shows an answer in its tab. */
  show(tab, answer) {
    const { page } = this;
    this.shown = { tab, answer };
    const text = decoded(answer.output);
    const words = tab.told ? { status: "not here", isGood: false, ended: "" } : wordsOf(answer, text, tab.missed);
    byId("status").textContent = words.status;
    byId("status").className = words.isGood ? "tag met" : "tag missed";
    const isOld = this.fill(tab, answer, text);
    byId("ended").textContent = isOld ? `${words.ended}; below stands the answer before it. ${firstFault(answer)}` : words.ended;
    byId("ended").title = words.took ?? "";
    if (tab.hasPolicy) this.markHeld(answer);
    this.drawErrors(tab.told ? "" : decoded(answer.errors));
  }

  /** Puts into the margins what breaks a policy: at the lines of the policy, and at the calls of the set-up that it comes from. A set-up
      that is refused has its marks already. */
  markHeld({ status, errors }) {
    const [{ page }, told] = [this, decoded(errors)];
    page.policy.mark(told, page.policyName);
    if (!REFUSED.includes(status)) page.editor.tell(toldOf(told, page.name));
  }

  /** Fills the panel of a tab with what the program wrote. Where that is a refusal, the last answer to the same set-up stays,
      dimmed: whether it does. */
  fill(tab, { status }, text) {
    const { page } = this;
    const panel = byId(`panel-${tab.name}`);
    const isOld = REFUSED.includes(status) && panel.dataset.of === String(page.opened);
    panel.classList.toggle("old", isOld);
    if (isOld) return true;
    const isWhole = status === 0 || status === 1;
    panel.dataset.of = isWhole ? page.opened : "";
    if (tab.told) panel.replaceChildren(element("p", {}, tab.told), element("pre", {}, page.commandLine(page.options.words(tab))));
    else if (isWhole) this.drawIn(panel, tab, text);
    else panel.replaceChildren(element("pre", {}, text));
    return false;
  }

  /** Draws an answer into the panel of its tab. One that cannot be drawn is shown as it was written: what stood there before is
      the answer to something else. */
  drawIn(panel, tab, text) {
    const { page } = this;
    try {
      tab.show(page, panel, text);
    } catch (fault) {
      panel.replaceChildren(element("p", {}, `This answer could not be drawn (${fault.message}). The program wrote:`), element("pre", { tabindex: "0" }, text));
    }
  }

  /** Shows standard error, with a way to the tab that it tells of. */
  drawErrors(errors) {
    const { page } = this;
    const isOfWhy = TELLS_WHY.test(errors) && page.tab !== WHY;
    byId("errors").replaceChildren(...[errors, isOfWhy ? link("why", () => page.choose(WHY)) : ""].filter(Boolean));
  }

  /** The report stands ready for a print whatever tab is shown. */
  showReportAlso(tab, report) {
    if (tab !== REPORT && !report.trap) this.fill(REPORT, report, decoded(report.output));
  }

  /** A set-up that is long is run where its reader says so. */
  hold() {
    const { page } = this;
    this.shown = null;
    for (const { name } of [page.tab, REPORT]) {
      const panel = byId(`panel-${name}`);
      panel.dataset.of = "";
      panel.classList.remove("old");
      panel.replaceChildren(element("p", {}, "This set-up is long: it runs when you press run. ", link("run it", () => page.run())));
    }
    for (const id of ["status", "ended", "errors"]) byId(id).textContent = "";
    page.tell("long: run it");
  }
}
