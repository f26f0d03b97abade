// node run.mjs SEL4SIM.WASM WORD..: runs sel4sim with these words. Files are read from the disk, and - is standard input.
import fs from "node:fs";

const [file, ...rest] = process.argv.slice(2);
const words = ["sel4sim", ...rest]; // the first one is the program's name
const unread = [rest.includes("-") ? fs.readFileSync(0) : Buffer.alloc(0), null, null];
const part = (address, bytes) => Buffer.from(memory.buffer, Number(address), Number(bytes));

const host = {
  read(from, address, bytes) {
    const taken = unread[from].copy(part(address, bytes));
    unread[from] = unread[from].subarray(taken);
    return BigInt(taken);
  },
  write(to, address, bytes) {
    try { return BigInt(fs.writeSync(to, part(address, bytes))); } catch { return -1n; }
  },
  argument(number, address, bytes) {
    const word = words[number];
    return word === undefined ? -1n : (Buffer.from(word).copy(part(address, bytes)), BigInt(Buffer.byteLength(word)));
  },
  open(address) {
    const text = Buffer.from(memory.buffer, Number(address));
    try {
      return unread.push(fs.readFileSync(text.toString("utf8", 0, text.indexOf(0)))) - 1;
    } catch { return -1; }
  },
  exit: (status) => process.exit(status),
};
const { instance } = await WebAssembly.instantiate(fs.readFileSync(file), { host });
const { memory, main } = instance.exports;
process.exit(main(0, 0n));
