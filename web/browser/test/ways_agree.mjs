// ways_agree.mjs FILE: FILE has traces with ways by their names, as JSON. A lookup that a reason says fails has no slot in the way that the page
// reads, one that leads to a slot has that one, and of a call that is not refused each word has one.
import { readFileSync } from "node:fs";
import { readTrace } from "../../page/source/trace.mjs";

const FAILS = /^(?:its guard|its radix|no CNode is there)/mu;
const LOOKED_UP = /^(cap|root|src_root|index|src_index) \d+(?: @\S+)?(?: (?:src_)?depth \d+(?: @\S+)?)? is looked up from/mu;
const LEADS = /^(\w+) \d+(?: @\S+)? leads to slot (\d+)/gmu;

/** What is wrong with the ways of a step, and how many lookups of it fail. */
function* faultsOf(step) {
  const { ways } = step;
  const reason = step.reasons.join("\n");
  const failing = ways.filter(({ address }) => address === null).map(({ name }) => name);
  const told = FAILS.test(reason) ? LOOKED_UP.exec(reason)[1] : null;
  if (told !== null && !failing.includes(told)) yield `${told} fails, and has a slot here`;
  if (!step.reply.startsWith("refused") && failing.length > 0) yield `${failing} have no slot here`;
  for (const [, name, slot] of reason.matchAll(LEADS)) {
    const way = ways.find((it) => it.name === name);
    if (way !== undefined && way.address !== Number(slot)) yield `${name} leads to ${slot}, and here to ${way.address}`;
  }
}

const counts = { ways: 0, faults: 0 };
for (const [name, text] of Object.entries(JSON.parse(readFileSync(process.argv[2], "utf8")))) {
  for (const step of readTrace(text).steps.slice(1)) {
    counts.ways += step.ways.length;
    for (const fault of faultsOf(step)) {
      counts.faults += 1;
      console.log(`${name}, call ${step.number}: ${fault}`);
    }
  }
}
console.log(`${counts.ways} ways, ${counts.faults} faults`);
process.exit(counts.faults > 0 || counts.ways < 1000 ? 1 : 0);
