// What each thread can invoke: the capabilities that its words lead to, and those that one copy or move from a CNode
// among them would give besides: as the audit of the state says, or, where the page has none, by its own lookups.
import { slotsFrom, wordsOfThread } from "./lookup.mjs";

/** Where it is from what a thread's words lead to in a state. */
export function sourceOf(places) {
  return places.audit ? "This is what sel4sim audit says, which is proved." : "Worked out by this page, not proved.";
}

const KIND_ORDER = ["endpoint", "tcb", "cnode", "untyped"];

/** What tells capabilities apart: the object, and the badge and rights, the guard, or how much is used. */
const keyOf = ({ object, badge, rights, guard, guardSize, free }) =>
  [object, badge, rights, guard, guardSize, free].join(" ");

/** The capabilities that some word of a thread leads to, by their keys; equal ones are one, with all their words. */
function waysOf(places, thread) {
  const ways = new Map();
  for (const [address, word] of wordsOfThread(places, thread)) {
    const capability = places.state.slot.get(address)?.capability;
    if (capability === undefined) continue;
    const key = keyOf(capability);
    if (!ways.has(key)) ways.set(key, { capability, words: [] });
    ways.get(key).words.push(word);
  }
  return ways;
}

/** The slots that an index and a depth name from a CNode among some ways, each with the CNode. Where an audit says this, each
    slot that no word leads to is told once. */
function heldOf(places, thread, ways) {
  const capabilityIn = (address) => places.state.slot.get(address)?.capability;
  if (places.audit) {
    return places.audit.of(thread).held.map(({ from, slot }) => ({ node: capabilityIn(from), capability: capabilityIn(slot) }))
      .filter(({ node, capability }) => node && capability);
  }
  const nodes = [...ways.values()].map(({ capability }) => capability).filter(({ kind }) => kind === "cnode");
  return nodes.flatMap((node) => slotsFrom(places, node).map(({ capability }) => ({ node, capability })));
}

/** The capabilities that a copy or move through the CNodes among some ways would give besides, by their keys; each with
    the CNodes that it is told of. */
function copiesOf(places, thread, ways) {
  const copies = new Map();
  for (const { node, capability } of heldOf(places, thread, ways)) {
    const key = keyOf(capability);
    if (ways.has(key)) continue;
    if (!copies.has(key)) copies.set(key, { capability, from: new Set() });
    copies.get(key).from.add(node.object);
  }
  return copies;
}

/** What a thread can invoke, `ways`, and could by a copy, `copies`, with one text that says all of it. */
function sightOf(places, thread) {
  const ways = waysOf(places, thread);
  const copies = copiesOf(places, thread, ways);
  const text = JSON.stringify([[...ways].map(([key, { words }]) => [key, words]),
    [...copies].map(([key, { from }]) => [key, [...from]])]);
  return { text, ways: [...ways.values()], copies: [...copies.values()] };
}

/** The sights of all threads, each with the threads that have it: these share a column. A sight depends on nothing but
    the capability in the thread's root slot. */
function sightsOf(places, threads) {
  const byRoot = new Map();
  const sights = new Map();
  for (const thread of threads) {
    const root = places.state.slot.get(thread)?.capability;
    const key = root === undefined ? "" : keyOf(root);
    if (!byRoot.has(key)) byRoot.set(key, sightOf(places, thread));
    const sight = byRoot.get(key);
    if (!sights.has(sight.text)) sights.set(sight.text, { ...sight, threads: [] });
    sights.get(sight.text).threads.push(thread);
  }
  return [...sights.values()];
}

/** Each object that some capability of the sights is of, with such a capability: by kind and address. */
function objectsOf(sights) {
  const objects = new Map();
  for (const { ways, copies } of sights) {
    for (const { capability } of [...ways, ...copies]) objects.set(capability.object, capability);
  }
  return [...objects.values()].sort((one, other) =>
    KIND_ORDER.indexOf(one.kind) - KIND_ORDER.indexOf(other.kind) || one.base - other.base || other.size - one.size);
}

/** What a sight has of one object: the ways to invoke it, the copies that would give it, and, of a CNode, the copies
    from it. */
function cellOf({ ways, copies }, object) {
  return {
    ways: ways.filter(({ capability }) => capability.object === object),
    copies: copies.filter(({ capability }) => capability.object === object),
    given: copies.filter(({ from }) => from.has(object)),
  };
}

/** The columns, each the threads that share it, and the rows, each an object with a cell for each column. */
export function reachOf(places) {
  const sights = sightsOf(places, places.state.sorted("thread").map(({ address }) => address));
  const columns = sights.map(({ threads }) => threads);
  const rows = objectsOf(sights).map((capability) =>
    ({ capability, cells: sights.map((sight) => cellOf(sight, capability.object)) }));
  return { columns, rows };
}
