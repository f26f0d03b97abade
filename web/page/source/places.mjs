// Where the slots of a state stand: in which CNode, and how many of them hold a capability of one object.

/** A state with its slots, its CNodes, and the full slots of each, and its audit, where there is one. What takes sorting is worked out when it is asked for,
    from the lines that were there at first, since the state goes on. */
export class Places {
  constructor(state, machine, audit) {
    Object.assign(this, { state, machine, audit });
    this.lines = [...state.slot.values()];
    const roots = [...state.thread.keys()].map((address) => state.slot.get(address)?.capability);
    this.roots = roots.filter((capability) => capability !== undefined);
    this.holders = new Map();
    const nodes = new Map();
    for (const { capability } of this.lines) {
      this.holders.set(capability.object, (this.holders.get(capability.object) ?? 0) + 1);
      if (capability.kind === "cnode") nodes.set(capability.base, capability);
    }
    this.nodes = [...nodes.values()].sort((one, other) => one.base - other.base);
    Object.assign(this, { inOrder: null, inside: null, lost: null });
  }

  /** The full slots by rising address. */
  get slots() {
    this.inOrder ??= this.lines.sort((one, other) => one.address - other.address);
    return this.inOrder;
  }

  /** Whether some slot holds a capability of an object, which is then live. */
  isLive(object) {
    return this.holders.has(object);
  }

  /** The full slots of the CNode at an address, by rising address. */
  slotsIn(base) {
    if (this.inside === null) {
      this.inside = new Map(this.nodes.map((node) => [node.base, []]));
      for (const slot of this.slots) this.inside.get(this.nodeAround(slot.address)?.base)?.push(slot);
    }
    return this.inside.get(base) ?? [];
  }

  /** The CNode in which an address lies, or undefined. */
  nodeAround(address) {
    let low = 0;
    let high = this.nodes.length;
    while (low < high) {
      const middle = (low + high) >> 1;
      if (this.nodes[middle].base <= address) low = middle + 1;
      else high = middle;
    }
    const node = this.nodes[low - 1];
    return node && address < node.base + node.size ? node : undefined;
  }

  /** The CNodes that some capabilities lead to, directly or through other CNodes: their addresses. Guards and depths do
      not count here. */
  nodesFrom(capabilities) {
    const found = new Set();
    const todo = [...capabilities];
    while (todo.length > 0) {
      const { kind, base } = todo.pop();
      if (kind !== "cnode" || found.has(base)) continue;
      found.add(base);
      todo.push(...this.capabilitiesIn(base));
    }
    return found;
  }

  capabilitiesIn(base) {
    return this.slotsIn(base).map(({ capability }) => capability);
  }

  /** The CNodes that no root slot of a thread leads to, each with those others in a circle with it: CNodes that hold
      one another. No thread can name a slot of them any more. */
  lostNodes() {
    this.lost ??= this.findLostNodes();
    return this.lost;
  }

  findLostNodes() {
    const reached = this.nodesFrom(this.roots);
    const lost = this.nodes.map(({ base }) => base).filter((base) => !reached.has(base));
    const below = new Map(lost.map((base) => [base, this.nodesFrom(this.capabilitiesIn(base))]));
    const together = (one, other) => one !== other && below.get(one).has(other) && below.get(other).has(one);
    return new Map(lost.map((base) => [base, lost.filter((other) => together(base, other))]));
  }

  /** How a slot of a CNode is called: `root[8]` or `16384[1]`; or null for one that lies in no CNode. */
  nameOf(address) {
    const node = this.nodeAround(address);
    return node ? `${node.base || "root"}[${(address - node.base) >> this.machine.slotBits}]` : null;
  }
}
