// The modules that read and replay a trace, without a browser: node --test page/test
import assert from "node:assert/strict";
import { test } from "node:test";
import { readAudits } from "../source/audits.mjs";
import { countWays, waysBetween } from "../source/channels.mjs";
import { TraceFault, readTrace } from "../source/trace.mjs";
import { Run, firstMisfit } from "../source/state.mjs";
import { inOrder } from "../source/order.mjs";
import { namedSlots } from "../source/way.mjs";
import { wordsOfSteps } from "../source/words.mjs";

const HEAD = "trace 2 narrow memory_bits 12 calls 1\nname server 1024\nname again 1024\n0 boot\n";
const BOOT = `  + thread 1024 ready
  + endpoint 2048 idle
  + slot 16 cnode 0 radix 4 guard 0 size 28 original
  + slot 48 endpoint 2048 badge 0 rights wrgp original
  + slot 1024 cnode 0 radix 4 guard 0 size 28 under 16
  + sibling 48 after 16
`;
const CALL = `1 1024 send: waiting [not met: done] [met]]
  with cap 3 label 7 words 1 2
  - thread 1024 ready
  + thread 1024 sending 2048 badge 0 label 7 words 1 2
  - endpoint 2048 idle
  + endpoint 2048 sending 1024
`;
const TRACE = `${HEAD}${BOOT}${CALL}expected 0 of 1\n`;

test("a trace is read in its parts", () => {
  const { machine, names, steps, complete, expected } = readTrace(TRACE);
  assert.equal(machine.wordBits, 32);
  assert.deepEqual(names.get("1024"), ["server", "again"]);
  assert.deepEqual(steps[1].words, { cap: "3", label: "7", words: "1 2" });
  assert.equal(steps[1].expectation, "not met: done] [met]");
  assert.deepEqual([complete, expected], [true, { met: 0, of: 1 }]);
});

test("a refused call has its reason, and no other call has one", () => {
  const call = CALL.split("\n")[1];
  const refused = `1 1024 send: refused 2\n${call}\n  cap 3 leads to slot 48: empty\n  a send is made so\n`;
  const read = (text) => readTrace(`${HEAD}${BOOT}${text}expected 0 of 0\n`).steps[1].reasons;
  assert.deepEqual(read(refused), ["cap 3 leads to slot 48: empty", "a send is made so"]);
  assert.deepEqual(read(CALL), []);
  assert.throws(() => read(`1 1024 send: refused 2\n${call}\n`), TraceFault);
  assert.throws(() => read(refused.replace("refused 2", "waiting")), TraceFault);
  assert.throws(() => read(refused.replace("  a send", "  a third\n  a fourth\n  a fifth\n  a send")), TraceFault);
});

test("the state runs forward and back", () => {
  const { steps } = readTrace(TRACE);
  const run = new Run(steps);
  run.go(0);
  const boot = run.state.texts();
  assert.deepEqual(boot, BOOT.trim().split("\n").map((line) => line.trim().slice(2)));
  run.go(1);
  assert.deepEqual(run.state.texts().slice(0, 2),
    ["thread 1024 sending 2048 badge 0 label 7 words 1 2", "endpoint 2048 sending 1024"]);
  run.go(0);
  assert.deepEqual(run.state.texts(), boot);
  run.go(-1);
  assert.deepEqual(run.state.texts(), []);
});

test("siblings stand in the kernel's order, and an emptied one where it stood", () => {
  const rows = [32, 64, 96, 128].map((address) => ({ address }));
  const inFront = new Map([[96, 128], [32, 96], [64, 96]]);
  const order = (emptied) => inOrder(rows, ({ address }) => inFront.get(address) ?? null,
    ({ address }) => address === emptied).map(({ address }) => address);
  assert.deepEqual(order(64), [128, 96, 64, 32]);
  assert.deepEqual(order(32), [128, 96, 32, 64]);
});

const GUARD = `${"0".repeat(28)}`;

/** A step whose line of words is followed by ways. */
function stepWith(words, ...ways) {
  const lines = ways.map((way) => `  way ${way}\n`).join("");
  const [, step] = readTrace(`${HEAD}${BOOT}1 1024 ${words.includes("index") ? "delete" : "recv"}: done\n  with ${words}\n${lines}expected 0 of 0\n`).steps;
  return step;
}

const boxesOf = ({ parts }) => parts.map(({ guard, unread, over, slot }) => [guard, slot?.bits, slot?.address, over, unread].filter((it) => it !== undefined));

test("a way is read in its bits, and tells the slots that a call names", () => {
  const found = stepWith("cap 3", "cap 3 bits 32 from 1024 guard 0 size 28 index 0011 slot 48");
  assert.deepEqual(boxesOf(found.ways[0]), [[GUARD, "0011", 48]]);
  assert.equal(found.ways[0].parts[0].base, 0);
  assert.deepEqual(namedSlots({ slot: new Map() }, found), { invoked: 48, root: undefined, source: undefined, target: undefined });
  const low = stepWith("cap 18446744069414584323", "cap 18446744069414584323 bits 32 from 1024 guard 0 size 28 index 0011 slot 48");
  assert.equal(low.ways[0].address, 48, "the low 32 bits alone count");
  const words = "cap 1 index 173 depth 9";
  const two = stepWith(words, "cap 1 bits 32 from 1024 guard 0 size 28 index 0001 slot 16",
    "index 173 bits 9 from 16 guard 2 size 3 index 10 slot 3104 guard 3 size 2 index 01 slot 3152");
  assert.deepEqual(boxesOf(two.ways[1]), [["010", "10", 3104], ["11", "01", 3152]]);
  assert.deepEqual(namedSlots({ slot: new Map() }, two), { invoked: 16, root: undefined, source: undefined, target: 3152 });
  assert.deepEqual(namedSlots({ slot: new Map() }, stepWith(words)), {}, "what is not told is not known");
});

test("of a way that leads to no slot the bits are told that fail, and those behind them", () => {
  const cap = "cap 1 bits 32 from 1024 guard 0 size 28 index 0001 slot 16";
  const endOf = (depth, told) => stepWith(`cap 1 index 39 depth ${depth}`, cap, `index 39 bits ${depth} from 16${told}`).ways[1];
  const guard = endOf(9, ": its guard is 5 of size 3; the next 3 of the 9 bits left read 0");
  assert.deepEqual([boxesOf(guard), guard.parts[0].wanted, guard.address], [[["000", "100111"]], "101", null]);
  assert.deepEqual(boxesOf(endOf(9, " guard 0 size 3 index 10 slot 3104: no CNode is there; bits left over: 4")), [["000", "10", 3104], ["0111"]]);
  const short = endOf(9, " guard 0 size 3 index 10 slot 3104: its guard has size 5; bits left: 4");
  assert.deepEqual([boxesOf(short)[1], short.parts[1].needs], [["0111", ""], 5]);
  const radix = endOf(9, " guard 0 size 3 index 10 slot 3104: its radix is 3; bits left behind the guard: 2");
  assert.deepEqual([boxesOf(radix)[1], radix.parts[1].slot.needs], [["01", "11"], 3]);
  assert.deepEqual(boxesOf(endOf(9, ": no CNode is there")), [["000100111"]]);
});

test("a way that is none of its call, or has other bits than its word, is refused", () => {
  const right = "cap 3 bits 32 from 1024 guard 0 size 28 index 0011 slot 48";
  for (const wrong of [right.replace("cap 3", "cap 2"), right.replace("cap", "root"), right.replace("0011", "0010"), right.replace("size 28", "size 27"),
    right.replace("bits 32", "bits 33"), `${right}: no reason`, `${right}\n  way ${right}`]) {
    assert.throws(() => stepWith("cap 3", wrong), TraceFault, wrong);
  }
  const short = "index 3 bits 9 from 16 guard 0 size 3 index 00 slot 3104";
  assert.throws(() => stepWith("cap 1 index 3 depth 9", short), TraceFault, "an index with bits left over leads to no slot");
});

test("what is written of a call has the places of its slots, the names of its threads and what its reply means", () => {
  const call = "1 1024 send: refused 3\n  with cap 4 label 0 words\n  way cap 4 bits 32 from 1024 guard 0 size 28 index 0100 slot 64\n"
    + "  cap 4 leads to slot 64: tcb 3072\n  a send is made by an endpoint's capability\n";
  const other = "  + thread 3072 inactive\n  + slot 64 tcb 3072 original\n  + sibling 64 after 48\n";
  const text = `${HEAD.replace("0 boot", "name other 3072\nname fourth 4\n0 boot")}${BOOT}${other}${call}expected 0 of 0\n`;
  const [, { gist, texts }] = wordsOfSteps(readTrace(text));
  assert.equal(gist, "by 4");
  for (const wanted of ["by 4", "root[4]", "server", "again", "other", "fourth", "IllegalOperation: the wrong kind of capability, or data that cannot be set"]) {
    assert.ok(texts.includes(wanted), `${wanted} is not in ${texts}`);
  }
});

test("a trace that was altered does not fit", () => {
  assert.equal(firstMisfit(readTrace(TRACE).steps), -1);
  const misfitWith = (line, other) => firstMisfit(readTrace(TRACE.replace(line, other)).steps);
  assert.equal(misfitWith("- endpoint 2048 idle", "- endpoint 2048 receiving 1024"), 1);
  assert.equal(misfitWith("  - endpoint 2048 idle\n", ""), 1);
});

test("a line that is dropped, doubled or altered is refused, or the trace is not complete, or does not fit", () => {
  const lines = TRACE.split("\n").slice(0, -1);
  const sound = (text) => {
    try {
      const { steps, complete } = readTrace(text);
      return complete && firstMisfit(steps) < 0;
    } catch (error) {
      assert.ok(error instanceof TraceFault, error);
      return false;
    }
  };
  for (const [place, line] of lines.entries()) {
    const replaced = (...others) => [...lines.slice(0, place), ...others, ...lines.slice(place + 1)].join("\n");
    const harmless = line.startsWith("name ") || line.startsWith("  + ");
    assert.ok(harmless || !sound(replaced()), `without ${line}`);
    assert.ok(line.startsWith("name ") || !sound(replaced(line, line)), `twice ${line}`);
    assert.ok(!sound(replaced(`${line}x`)), `${line}x`);
    assert.ok(!sound(replaced(line.replace(/\d+/, "99999999999999999999999"))) || !/\d/.test(line), line);
  }
});

test("a thread that is told as another one names the same, and has its ways", () => {
  const audit = readAudits(`audit 2 wide memory_bits 14 calls 0 after 0
thread 2048 @a ready
  reach 2048 4 slot 128 endpoint 8192 badge 0 rights wr--
thread 4096 ready
  as 2048 @a
thread 6144 ready
  reach 6144 1 slot 256 endpoint 8192 badge 7 rights w---
channel 2048 @a 4 -> 8192 badge 0 rights wr-- -> 2048 @a 4
channel 6144 1 -> 8192 badge 7 rights w--- -> 2048 @a 4
`).get(0);
  assert.deepEqual([...audit.of(4096).words], [[128, "4"]]);
  const ways = waysBetween(audit.ways, audit.spaces).map(({ from, to }) => [from, to]);
  assert.deepEqual(ways, [["2048 @a", "4096"], ["4096", "2048 @a"], ["6144", "2048 @a"], ["6144", "4096"]]);
  assert.equal(countWays(audit.ways, audit.spaces), ways.length);
});
