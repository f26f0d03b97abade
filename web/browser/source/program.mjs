// The program in a worker: one run at a time, which can be stopped.

const NAME = "sel4sim";
/** A run that took more memory than this leaves a worker behind that is not used again, so that it is given back. */
const KEPT_MEMORY = 64 << 20;

/** The status of a command line that is refused. */
const LINE_REFUSED = 4;
const WAYS = "--ways";

/** What a run that was stopped gives in place of an answer. */
export const STOPPED = Symbol("stopped");

/** What a text has in it that was packed by gzip and base64, as a stream. */
function streamOf(text) {
  const letters = atob(text);
  const packed = new Uint8Array(letters.length);
  for (let at = 0; at < letters.length; at += 1) packed[at] = letters.charCodeAt(at);
  return new Blob([packed]).stream().pipeThrough(new DecompressionStream("gzip"));
}

/** The text that was packed so. */
export const unpacked = (text) => new Response(streamOf(text)).text();

/** The module that was packed so: it is compiled while it is unpacked. */
export const compiled = (text) => WebAssembly.compileStreaming(new Response(streamOf(text), { headers: { "Content-Type": "application/wasm" } }));

/** Runs a module, which may still be on its way, by the worker's script `script`; `urls` makes addresses that the page's policy lets pass. */
export class Program {
  constructor(module, script, urls) {
    this.module = module;
    this.address = urls.createScriptURL(URL.createObjectURL(new Blob([script], { type: "text/javascript" })));
    this.worker = null;
    this.give = null;
  }

  get isRunning() {
    return this.give !== null;
  }

  /** Runs the program with words and the files that they may name, one and others. The answer is `{ status, output, errors,
      milliseconds, memory }`, with `trap` in place of `status` where it was ended by the browser, or STOPPED. A module that is older
      than `trace --ways` is asked for a trace alone: the steps say what that lacks. */
  async run(words, name, bytes, others = []) {
    const answer = await this.runOnce(words, name, bytes, others);
    const isOlder = answer.status === LINE_REFUSED && words.includes(WAYS);
    return isOlder ? this.runOnce(words.filter((word) => word !== WAYS), name, bytes, others) : answer;
  }

  async runOnce(words, name, bytes, others) {
    this.stop();
    const answer = new Promise((give) => {
      this.give = give;
    });
    const { give } = this;
    try {
      const module = await this.module;
      if (this.give === give) this.start(module, { words: [NAME, ...words], files: [{ name, bytes }, ...others] });
    } catch (error) {
      this.end({ trap: `${error.name}: ${error.message}`, output: new Uint8Array(), errors: new Uint8Array(),
        milliseconds: 0, memory: 0 });
    }
    return answer;
  }

  start(module, message) {
    this.worker ??= new Worker(this.address);
    this.worker.onmessage = ({ data }) => {
      if (data.memory > KEPT_MEMORY || data.trap) this.dismiss();
      this.end(data);
    };
    this.worker.onerror = (event) => {
      this.dismiss();
      this.end({ trap: event.message || "the worker could not run", output: new Uint8Array(),
        errors: new Uint8Array(), milliseconds: 0, memory: 0 });
    };
    this.worker.postMessage({ module, ...message });
  }

  /** Stops what runs, if anything does. */
  stop() {
    if (!this.isRunning) return;
    this.dismiss();
    this.end(STOPPED);
  }

  dismiss() {
    this.worker?.terminate();
    this.worker = null;
  }

  end(answer) {
    this.give?.(answer);
    this.give = null;
  }
}
