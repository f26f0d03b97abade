// The threads with what each does and last received, and the endpoints with who waits on each.
import { code, dim, element, heading } from "./element.mjs";
import { kindMark, messageName, nameOfObject, namesOfThread, objectName, signOf } from "./names.mjs";

// Of more endpoints than these, the idle ones are named in one line; of more that ended, only their number is told.
const MOST_ENDPOINTS = 8;
const MOST_ENDED = 6;
const MOST_NAMED = 40;

const STATE_SIGNS = { ready: "▶", inactive: "■", sending: "⇢", receiving: "⇠" };

const thread = (base) => ({ kind: "tcb", base, object: `tcb ${base}` });
const endpoint = (base) => ({ kind: "endpoint", base, object: `endpoint ${base}` });

/** Whether the lines of an object are new, altered, or as they were. */
function lookOf(view, key, ...others) {
  const { old, now } = view.changes;
  if (now.has(key) && !old.has(key)) return "filled";
  return now.has(key) || others.some((other) => now.has(other)) ? "altered" : "";
}

function drawThread(view, line) {
  const { address, state } = line;
  const inbox = view.state.inbox.get(address);
  const caller = String(address) === view.step.thread;
  const look = `${lookOf(view, `thread ${address}`, `inbox ${address}`)}${caller ? " named" : ""}`;
  return element("li", { class: look, title: caller ? "made the call" : undefined, "data-thread": address },
    objectName(view, thread(address)), " ", element("span", { "aria-hidden": "true" }, STATE_SIGNS[state]), ` ${state}`,
    line.endpoint === null ? null : [" ", code(String(line.endpoint)), nameOfObject(view, endpoint(line.endpoint))],
    inbox ? element("div", { class: "dim" }, signOf("message"), messageName(inbox)) : null);
}

function endedLines(view, kind) {
  const { old, now } = view.changes;
  return [...old.values()].filter((line) => line.kind === kind && !now.has(`${kind} ${line.address}`));
}

function drawThreads(view, lines) {
  const ended = endedLines(view, "thread").map(({ address }) => element("li", { class: "emptied" }, signOf("ended"),
    kindMark("tcb"), element("s", { class: "code" }, String(address)), namesOfThread(view, address), " ended"));
  return [heading("Threads", String(lines.length)),
    element("ul", { class: "threads" }, lines.map((line) => drawThread(view, line)), ended)];
}

function drawWaiting(view, address) {
  const line = view.state.thread.get(address);
  const message = line?.message === undefined ? "" : ` ${messageName(line)}`;
  return element("li", { "data-thread": address }, objectName(view, thread(address)), message);
}

/** The threads that left a queue at this step, with the messages that they were sending. */
function drawLeft(view, line) {
  const before = view.changes.old.get(`endpoint ${line.address}`)?.queue ?? [];
  const left = before.filter((address) => !line.queue.includes(address));
  if (left.length === 0) return null;
  const draw = (address) => {
    const was = view.changes.old.get(`thread ${address}`);
    return element("li", { class: "emptied" }, signOf("emptied"), element("s", {}, objectName(view, thread(address))),
      was?.message === undefined ? "" : dim(` ${messageName(was)}`));
  };
  return [" ", element("ul", { class: "queue", "aria-label": "left the queue" }, left.map(draw))];
}

function drawEndpoint(view, line) {
  const { address, state, queue } = line;
  const waiting = state === "idle" ? dim("idle, nobody waits")
    : [`${state} `, element("ol", { class: "queue" }, queue.map((waiter) => drawWaiting(view, waiter)))];
  return element("li", { class: lookOf(view, `endpoint ${address}`), "data-endpoint": address, "data-state": state },
    objectName(view, endpoint(address)), nameOfObject(view, endpoint(address)), " ", waiting, drawLeft(view, line));
}

const named = (lines) => lines.slice(0, MOST_NAMED).map(({ address }) => address).join(" ")
  + (lines.length > MOST_NAMED ? ` and ${lines.length - MOST_NAMED} more` : "");

function drawEndedEndpoints(view) {
  const ended = endedLines(view, "endpoint");
  if (ended.length > MOST_ENDED) {
    const addresses = element("s", { class: "code" }, named(ended));
    return element("li", { class: "emptied" }, signOf("ended"), `${ended.length} endpoints ended: `, addresses);
  }
  return ended.map(({ address, queue }) => element("li", { class: "emptied" }, signOf("ended"), kindMark("endpoint"),
    element("s", { class: "code" }, String(address)), " ended", queue.length > 0 ? `, ${queue.length} waited` : ""));
}

function drawEndpoints(view, lines) {
  const many = lines.length > MOST_ENDPOINTS;
  const quiet = (line) => many && line.state === "idle" && lookOf(view, `endpoint ${line.address}`) === "";
  const idle = lines.filter(quiet);
  return [heading("Endpoints", `${lines.length}; who waits, the first to be served first`),
    element("ul", { class: "endpoints" }, lines.filter((line) => !quiet(line)).map((line) => drawEndpoint(view, line)),
      drawEndedEndpoints(view)),
    idle.length > 0 ? element("p", { class: "dim" }, "idle: ", element("span", { class: "code" }, named(idle))) : null];
}

/** The threads and endpoints of the state behind a step. */
export function drawThreadsAndEndpoints(view) {
  return [drawThreads(view, view.state.sorted("thread")), drawEndpoints(view, view.state.sorted("endpoint"))];
}
