// What is known of a step: the states around it, what it names and what it changes.
import { NOTHING, changesOf } from "./changes.mjs";
import { Places } from "./places.mjs";
import { Run } from "./state.mjs";
import { namedSlots } from "./way.mjs";

const ROLES = ["invoked", "root", "source", "target"];

/** The views of a trace's steps. A view is of use until the next one is asked for: all have one state. */
export class Views {
  constructor(trace) {
    this.trace = trace;
    this.run = new Run(trace.steps);
    this.latest = new Map();
  }

  /** Goes to the state behind a step: its places. Those of the steps looked at last are kept. */
  placesBehind(number) {
    this.run.go(number);
    const places = this.latest.get(number) ?? new Places(this.run.state, this.trace.machine, this.trace.audits?.get(number));
    this.latest = new Map([...this.latest].slice(-1)).set(number, places);
    return places;
  }

  /** What a step is given: the state before it and what it names there. */
  before(number) {
    const { trace, run } = this;
    const step = trace.steps[number];
    const before = this.placesBehind(number - 1);
    const { ways } = step;
    const named = namedSlots(run.state, step);
    const held = Object.fromEntries(ROLES.map((role) => [role, run.state.slot.get(named[role])?.capability]));
    const ring = new Set([named.invoked, named.source, named.target]);
    const passed = new Set(ways.filter(({ parts }) => parts.length > 1).flatMap(({ parts }) => parts.map(({ slot }) => slot?.address)));
    return { trace, step, before, named, held, ways, isNamed: (address) => ring.has(address), isPassed: (address) => passed.has(address) };
  }

  /** A step with its effect. */
  of(number) {
    const given = this.before(number);
    const after = this.placesBehind(number);
    return { ...given, after, state: this.run.state, isAsked: false, changes: changesOf(given.step, given.before, after) };
  }

  /** A step that is asked for and not told: the state is the one before it. */
  asked(number) {
    const given = this.before(number);
    return { ...given, after: given.before, state: this.run.state, isAsked: true, changes: NOTHING };
  }
}
