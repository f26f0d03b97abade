// The order of siblings in the derivation forest.

/** Slots that stand below one slot, in the kernel's order: `inFront` gives of each the address of the sibling right in
    front of it, or null. A slot that a call emptied stands where it stood, in front of those that came into its place. */
export function inOrder(rows, inFront, isEmptied) {
  const present = new Set(rows.map(({ address }) => address));
  const behind = new Map();
  for (const row of [...rows].sort((one, other) => isEmptied(other) - isEmptied(one))) {
    const before = present.has(inFront(row)) ? inFront(row) : null;
    if (!behind.has(before)) behind.set(before, []);
    behind.get(before).push(row);
  }
  const ordered = new Set();
  const todo = [...(behind.get(null) ?? [])].reverse();
  while (todo.length > 0) {
    const row = todo.pop();
    if (ordered.has(row)) continue;
    ordered.add(row);
    todo.push(...[...(behind.get(row.address) ?? [])].reverse());
  }
  return [...ordered, ...rows.filter((row) => !ordered.has(row))];
}
