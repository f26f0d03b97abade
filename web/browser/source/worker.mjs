// The worker: it runs the program, a WebAssembly module, once for each message, and tells what it wrote. To the program
// it is the system: its standard input has nothing, and there are the set-up and, where a tab has one, a policy, by their names.
// This file stands alone: the page gives its text to the browser as the worker's script.

const STANDARD_INPUT = 0;
const STANDARD_ERROR = 2;
/** Files are numbered from here on, in their order. */
const FIRST_FILE = 3;
const NONE = -1;

/** Thrown where the program ends by itself with a status. */
class Ended extends Error {
  constructor(status) {
    super(`ended with status ${status}`);
    this.status = status;
  }
}

/** What the program sees of the system, and what it wrote. */
class System {
  constructor({ words, files }) {
    const encoder = new TextEncoder();
    this.words = words.map((word) => encoder.encode(word));
    this.files = files;
    this.unread = { [STANDARD_INPUT]: new Uint8Array() };
    this.written = [[], [], []];
    this.memory = null;
  }

  part(address, length) {
    return new Uint8Array(this.memory.buffer, Number(address), Number(length));
  }

  read(file, address, length) {
    const taken = this.unread[file].subarray(0, Number(length));
    this.part(address, taken.length).set(taken);
    this.unread[file] = this.unread[file].subarray(taken.length);
    return BigInt(taken.length);
  }

  write(file, address, length) {
    this.written[Math.min(file, STANDARD_ERROR)].push(this.part(address, length).slice());
    return length;
  }

  argument(number, address, length) {
    const word = this.words[Number(number)];
    if (word === undefined) return BigInt(NONE);
    this.part(address, Math.min(word.length, Number(length))).set(word.subarray(0, Number(length)));
    return BigInt(word.length);
  }

  open(address) {
    const rest = new Uint8Array(this.memory.buffer, Number(address));
    const path = new TextDecoder().decode(rest.slice(0, rest.indexOf(0)));
    const at = this.files.findIndex(({ name }) => name === path);
    if (at < 0) return NONE;
    this.unread[FIRST_FILE + at] = this.files[at].bytes;
    return FIRST_FILE + at;
  }

  /** All that was written to one of the streams. */
  whole(stream) {
    const parts = this.written[stream];
    const whole = new Uint8Array(parts.reduce((sum, part) => sum + part.length, 0));
    let at = 0;
    for (const part of parts) {
      whole.set(part, at);
      at += part.length;
    }
    return whole;
  }
}

/** Runs the program to its end: its status, or how it was stopped. */
async function run(module, system) {
  const { read, write, argument, open } = System.prototype;
  const host = Object.fromEntries(Object.entries({ read, write, argument, open })
    .map(([name, method]) => [name, method.bind(system)]));
  host.exit = (status) => {
    throw new Ended(status);
  };
  const { exports } = await WebAssembly.instantiate(module, { host });
  system.memory = exports.memory;
  try {
    return { status: exports.main(0, 0n) };
  } catch (error) {
    return error instanceof Ended ? { status: error.status } : { trap: `${error.name}: ${error.message}` };
  }
}

onmessage = async ({ data }) => {
  const system = new System(data);
  const begun = performance.now();
  try {
    const ended = await run(data.module, system);
    const [output, errors] = [system.whole(1), system.whole(2)];
    postMessage({ ...ended, output, errors, milliseconds: performance.now() - begun,
      memory: system.memory.buffer.byteLength }, [output.buffer, errors.buffer]);
  } catch (error) {
    postMessage({ trap: `${error.name}: ${error.message}`, output: new Uint8Array(), errors: new Uint8Array(),
      milliseconds: performance.now() - begun, memory: 0 });
  }
};
