// The state that a trace tells: lines by kind and address. A change takes lines away and puts lines there; it says both
// what was and what is, so it is undone as easily as done, and no earlier state has to be kept.

/** The kinds of lines, in the order in which a state shows them. */
const KINDS = ["thread", "inbox", "endpoint", "slot", "selfheld", "sibling"];

/** The lines of one moment of a run. */
class State {
  constructor() {
    for (const kind of KINDS) this[kind] = new Map();
  }

  /** Applies changes: the lines with the sign `goes` are taken away, the others are put there. */
  change(changes, goes) {
    for (const { sign, line } of changes) if (sign === goes) this[line.kind].delete(line.address);
    for (const { sign, line } of changes) if (sign !== goes) this[line.kind].set(line.address, line);
  }

  /** Whether each line that the changes take away stands here, and none where they put one, each at most once. */
  fits(changes) {
    const seen = new Set();
    return changes.every(({ sign, line }) => {
      const key = `${line.kind} ${line.address}`;
      if (seen.has(sign + key)) return false;
      seen.add(sign + key);
      const here = this[line.kind].get(line.address);
      return sign === "-" ? here?.text === line.text : here === undefined || seen.has(`-${key}`);
    });
  }

  /** The lines of a kind by rising address. */
  sorted(kind) {
    return [...this[kind].values()].sort((one, other) => one.address - other.address);
  }

  /** The texts of all lines, in the order of a trace. */
  texts() {
    return KINDS.flatMap((kind) => this.sorted(kind).map((line) => line.text));
  }
}

/** A run, standing behind one of its steps. Before boot, at -1, the state has no lines. */
export class Run {
  constructor(steps) {
    this.steps = steps;
    this.state = new State();
    this.number = -1;
  }

  /** Goes on or back to the state behind a step. */
  go(number) {
    while (this.number < number) this.state.change(this.steps[++this.number].changes, "-");
    while (this.number > number) this.state.change(this.steps[this.number--].changes, "+");
  }
}

/** The first step whose changes do not fit the state before it, or -1: such a trace was altered by someone. */
export function firstMisfit(steps) {
  const state = new State();
  return steps.findIndex(({ changes }) => {
    if (!state.fits(changes)) return true;
    state.change(changes, "-");
    return false;
  });
}
