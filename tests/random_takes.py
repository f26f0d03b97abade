#!/usr/bin/env python3
"""random_takes.py PROGRAM SEED COUNT: who can empty whose slots, and policies that let just that.

COUNT layouts are drawn from SEED: a loader copies, mints and moves capabilities to endpoints between its own slots and those of three or
four clients. Who takes from whom is found by walking the tree of slots. A policy of what a layout has, with just these takes, has to be
kept, and to have no unused take; with the version 1 it has to be kept too, and to tell of no take. With one take less a line of that
take has to be the only breach, and the line below it has to name the first slot that can be emptied so, the nearest slot above it that can
empty it, and the calls that filled them; in the witness of `--how 1`, if there is one, the call before the last has to be of the part that
takes, and to empty a slot of the other; with one more that is not there, it has to be unused; with all of them turned round, the policy
has to be broken where the other way round is not there.

Then threads of the clients make revokes, and random calls: those of one part may change a slot of another only where it takes from that.
"""
import pathlib
import random
import re
import sys
import tempfile
import tomllib

import parts
import random_policies
import revokes
from program import document, run, side_by_side

ROOT, SLOTS, LOADER = 1, 8, 2048
FIRST_NODE, OWN = 20, range(10, 20)
TREE = re.compile(r"( *)(\d+) ")
ABOVE = re.compile(r"^slot (\d+) .* children$", re.M)
REVOKES, CALLS = 4, 12
WITHOUT = re.compile(r"how 1 (excluded by flow|not found|not found of \d+)\n")


def set_up(chance):
    """A layout: each client gets a CNode, and then capabilities are handed on, at any depth."""
    clients, endpoints = chance.choice((3, 4)), 2
    first_endpoint = 2 + 1 + clients
    nodes, other = first_endpoint + endpoints, first_endpoint + endpoints + 1
    calls = []

    def call(op, **keys):
        calls.append({"thread": LOADER, "op": op, **keys})

    places = {0: (ROOT, 64), **{j: (FIRST_NODE + j, 3) for j in range(1, clients + 1)}}
    for j in range(1, clients + 1):
        call("retype", cap=nodes, kind=4, size_bits=3, root=ROOT, offset=FIRST_NODE + j, count=1)
    full = {j: set() for j in places} | {0: set(range(first_endpoint, first_endpoint + endpoints))}
    for _ in range(chance.choice((6, 12, 20))):
        giver, taker = chance.choice([j for j in places if full[j]]), chance.choice(list(places))
        source = chance.choice(sorted(full[giver]))
        free = sorted(set(OWN if taker == 0 else range(3, SLOTS)) - full[taker])
        if not free:
            continue
        target, op = chance.choice(free), chance.choice(("copy", "mint", "mint", "move"))
        (cap, depth), (src_root, src_depth) = places[taker], places[giver]
        more = {} if op == "move" else {"rights": chance.choice((1, 2, 3, 15))}
        more |= {"word": chance.choice((0, 1, 2, 7))} if op == "mint" else {}
        call(op, cap=cap, index=target, depth=depth, src_root=src_root, src_index=source, src_depth=src_depth, **more)
        full[taker].add(target)
        if op == "move":
            full[giver].discard(source)
    if chance.random() < 0.3:
        call("move", cap=FIRST_NODE + 1, index=1, depth=3, src_root=ROOT, src_index=other)
    for j in range(1, clients + 1):
        if chance.random() < 0.8:
            call("mint", cap=FIRST_NODE + j, index=2, depth=3, src_root=ROOT, src_index=FIRST_NODE + j, rights=15, word=61)
        call("set_space", cap=2 + j, root=FIRST_NODE + j, word=61)
    return document({"format": 2, "memory_bits": 16, "root_radix": 5, "threads": 1 + clients, "endpoints": endpoints,
                     "untyped": [{"base": 32768, "bits": 13}, {"base": 49152, "bits": 12}], "call": calls})


def takes_in(tree, memory):
    """Which part has a slot above one of which other, by a tree, where each slot stands two columns right of the one that it is below: of each
    two the first slot below, by address, and the nearest of the other part's above it."""
    takes, above = {}, []
    for indent, slot in ((it[0], int(it[1])) for it in (TREE.match(line).groups() for line in tree.splitlines()[1:])):
        del above[len(indent) // 2:]
        part = parts.part_at(memory, slot)
        nearest = {}
        for one, up in reversed(above):
            nearest.setdefault(one, up)
        for one, up in nearest.items():
            if None not in (one, part) and one != part:
                takes[one, part] = min(takes.get((one, part), (slot, up)), (slot, up))
        above.append((part, slot))
    return takes


class Takes:
    """A layout with its takes, and a file for policies."""

    def __init__(self, program, seed, folder):
        self.program, self.name, self.chance = program, f"random {seed}", random.Random(f"takes {seed}")
        self.text, self.file = set_up(self.chance), pathlib.Path(folder) / f"{seed}.toml"
        self.layout = random_policies.Layout(program, self.name, self.text, ["--without", str(LOADER)])
        self.numbers = sorted(set(self.layout.threads.values()))
        self.under = takes_in(run(program, "tree", "-", text=self.text)[1], self.layout.memory)
        self.takes = set(self.under)
        self.shown = 0

    def held(self, takes, version=2):
        """The status of the layout held to a policy with these takes, its breaches with what stands below them, its unused takes, and its last
        line."""
        text = self.layout.whole().replace("policy = 1\n", f"policy = {version}\n", 1)
        text += "".join(f'[[take]]\nfrom = "g{one}"\nto = "g{other}"\n' for one, other in sorted(takes))
        self.file.write_text(text)
        status, told = run(self.program, "policy", str(self.file), "-", text=self.text)
        lines = told.splitlines()
        return status, [it for it in lines if it.startswith(("breach ", "  "))], [it for it in lines if it.startswith("unused take ")], lines[-1]

    def filled(self, slot):
        """The last of the calls that found a slot empty and left it full."""
        table = tomllib.loads(self.text)
        states = [parts.held(run(self.program, "check", "-", text=document({**table, "call": table["call"][:n]}))[1]) for n in range(len(table["call"]) + 1)]
        calls = [n for n in range(1, len(states)) if slot not in states[n - 1] and slot in states[n]]
        return f"{slot} call {calls[-1]}" if calls else f"{slot} boot"

    def policy_faults(self):
        """What is wrong with policies that let what is taken, less of it, and more."""
        status, breaches, unused, last = self.held(self.takes)
        if status or breaches or unused or f" takes {len(self.takes)} " not in last:
            yield f"its own takes {sorted(self.takes)}: status {status}, {breaches}, {unused}, {last}"
        status, breaches, _, last = self.held((), 1)
        if status or breaches or "take" in last:
            yield f"version 1: status {status}, {breaches}, {last}"
        for one, other in self.chance.sample(sorted(self.takes), min(2, len(self.takes))):
            status, breaches, unused, _ = self.held(self.takes - {(one, other)})
            slot, up = map(self.filled, self.under[one, other])
            if status != 1 or breaches != [f"breach take g{one} -> g{other}", f"  slot {slot} under slot {up}"] or unused:
                yield f"without {one} -> {other}: status {status}, {breaches}, {unused}"
            yield from self.witness_faults(one, other)
        more = [(one, other) for one in self.numbers for other in self.numbers if one != other and (one, other) not in self.takes]
        for one, other in self.chance.sample(more, min(1, len(more))):
            status, breaches, unused, _ = self.held(self.takes | {(one, other)})
            if status or breaches or unused != [f"unused take g{one} -> g{other}"]:
                yield f"with {one} -> {other} more: status {status}, {breaches}, {unused}"
        back = {(other, one) for one, other in self.takes}
        if self.held(back)[0] != (1 if self.takes - back else 0):
            yield f"its takes {sorted(self.takes)} turned round: status {self.held(back)[0]}"

    def witness_faults(self, one, other):
        """What is wrong with the calls by which the only breach of the policy happens, a take of one part from the other."""
        status, text = run(self.program, "policy", str(self.file), "--how", "1", "-", text=self.text)
        if status != 0:
            if status != 1 or not WITHOUT.fullmatch(text):
                yield f"how {one} -> {other}: status {status}, {text}"
            return
        self.shown += 1
        calls = tomllib.loads(text)["call"]
        before, after = (parts.held(run(self.program, "check", "-", text=document({**tomllib.loads(text), "call": calls[:n]}))[1]) for n in (-2, -1))
        emptied = [slot for slot in before.keys() - after.keys() if parts.part_at(self.layout.memory, slot) == other]
        if not emptied or self.layout.threads.get(calls[-2]["thread"]) != one:
            yield f"how {one} -> {other}: {calls[-2]} empties {emptied}"

    def changed(self, caller, before, after):
        """The slots of other parts than the caller's that changed between two states, each with its part, and whether a take lets it."""
        mine = self.layout.threads[caller]
        for slot, cap in before.items():
            part = parts.part_at(self.layout.memory, slot)
            if part not in (None, mine) and after.get(slot) != cap:
                yield slot, part, (mine, part) in self.takes
        for slot in after.keys() - before.keys():
            part = parts.part_at(self.layout.memory, slot)
            if part not in (None, mine):
                yield slot, part, False

    def state_behind(self, calls):
        table = tomllib.loads(self.text)
        return parts.held(run(self.program, "check", "-", text=document({**table, "call": table["call"] + calls}))[1])

    def calls_to_make(self):
        """Lists of calls of threads of one part, each behind others of any part: revokes that are possible now, and random ones."""
        audit = run(self.program, "audit", "--without", str(LOADER), "-", text=self.text)[1]
        above = set(map(int, ABOVE.findall(run(self.program, "check", "-", text=self.text)[1])))
        now = [call for slot, call in revokes.calls_of(audit, "wide").items() if slot in above]
        for call in self.chance.sample(now, min(REVOKES, len(now))):
            yield [], [call]

        def at_random(threads):
            ops = (parts.MESSAGES, parts.OTHERS)
            text = "".join(parts.random_call(self.chance, self.chance.choice(threads), self.chance.choice(ops)) for _ in range(CALLS))
            return tomllib.loads(text)["call"]
        part = self.chance.choice(self.numbers)
        yield at_random(list(self.layout.threads)), at_random([it for it, i in self.layout.threads.items() if i == part])

    def found(self):
        """How many takes there are, how many slots of others were emptied, how many witnesses there are, and what is wrong."""
        if not self.layout.is_read or len(self.numbers) < 2:
            return 0, 0, 0, []
        emptied, wrong = 0, list(self.policy_faults())
        for before, calls in self.calls_to_make():
            for slot, part, is_let in self.changed(calls[0]["thread"], self.state_behind(before), self.state_behind(before + calls)):
                emptied += 1
                wrong += [] if is_let else [f"{calls} change slot {slot} of part {part}"]
        return len(self.takes), emptied, self.shown, [f"{self.name}: {it}" for it in wrong]


def main():
    program, seed, count = str(pathlib.Path(sys.argv[1]).absolute()), int(sys.argv[2]), int(sys.argv[3])
    with tempfile.TemporaryDirectory() as folder:
        found = side_by_side(lambda one: Takes(program, one, folder).found(), range(seed, seed + count))
    takes, emptied, shown, faults = (sum((it[i] for it in found), start) for i, start in enumerate((0, 0, 0, [])))
    print("\n".join([*faults[:5], f"{count} layouts, {takes} takes, {emptied} slots of others emptied, {shown} witnesses, {len(faults)} faults"]))
    return 1 if faults or not takes or not emptied or not shown else 0


if __name__ == "__main__":
    sys.exit(main())
