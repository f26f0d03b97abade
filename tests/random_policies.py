#!/usr/bin/env python3
"""random_policies.py PROGRAM SEED COUNT FOLDER..: policies that a layout keeps, and the same with one entry cut.

The layouts are those of the FOLDERs (NAME.toml with NAME.args) in which no thread waits and no part has hold of a
trusted thread, and COUNT random ones, drawn from SEED by
imports.py and brought in by `import`. Of each a policy is made from what `ever` and `check` tell: a group for each part with the regions that its slots hold, a
use for each use, a way for each way. The layout has to keep it, and to keep it with an entry more, any badge or all rights in place of an
entry's, or two groups as one. Then one entry is taken out or turned round, or its badge or a right of it: a line of that group and of that
endpoint or region has to be a breach, just where a slot holds now what the other entries do not allow, or two parts can pass a message
now without a way. Behind the layout random calls of its threads are made: no slot of a part may hold what the policy does not allow, and no
message may pass without a way."""
import pathlib
import random
import re
import sys
import tempfile
import tomllib

import imports
import parts
from program import document, run, side_by_side

LETTERS = "wrgp"
USE = re.compile(r"  use (\d+) badge (\w+) rights (\S+)")
WAY = re.compile(r"way (\d+) -> (\d+) badge (\w+) -> (\d+)")
ENDPOINT = re.compile(r"slot (\d+) endpoint (\d+) badge (\d+) rights (\S+)")
REGION = re.compile(r"slot (\d+) untyped (\d+) bits (\d+)")
BADGES = ("1", "77", "4242")


def any_of(badge):
    """A badge as a policy has it: none stands for any."""
    return "any" if badge in ("any", "0") else badge


def letters_of(rights):
    return frozenset(rights) & frozenset(LETTERS)


class Layout:
    """A layout with its parts: threads and memory by part, uses, ways, and the regions in slots of each part."""

    def __init__(self, program, name, text, trust):
        self.name, self.text, self.trust = name, text, trust
        _, ever = run(program, "ever", *trust, "-", text=text)
        self.is_read = ever.startswith("ever ")
        self.threads, self.memory = parts.parts_of(ever)
        # A trusted thread whose control block a part has is a thread of that part: no policy allows that.
        self.is_read = self.is_read and not any(int(who) in self.threads for who in re.findall(r"^without (\d+)", ever, re.M))
        part, uses = None, set()
        for line in ever.splitlines():
            if line.startswith("part "):
                part = int(line.split()[1])
            elif USE.match(line):
                endpoint, badge, rights = USE.match(line).groups()
                uses.add((part, endpoint, any_of(badge), letters_of(rights)))
        self.uses = sorted(uses, key=repr)
        self.ways = sorted({(int(a), e, any_of(b), int(c)) for a, e, b, c in WAY.findall(ever)})
        _, report = run(program, "check", "-", text=text)
        self.is_read = self.is_read and not re.search(r"^thread \d+ (?:sending|receiving) ", report, re.M)
        self.calls = len(re.findall(r"^\d+ \d+ \w+: ", report, re.M))
        self.regions = sorted({(part, base, bits) for slot, base, bits in REGION.findall(report)
                               if (part := parts.part_at(self.memory, int(slot))) is not None})
        self.held = [(part, endpoint, badge, letters_of(rights)) for slot, endpoint, badge, rights in ENDPOINT.findall(report)
                     if (part := parts.part_at(self.memory, int(slot))) is not None]

    def policy(self, uses, ways, regions):
        """The text of a policy with these uses, ways and regions."""
        lines = ["policy = 1", "seL4_grant = false", "calls_succeed = false"]
        if self.trust:
            lines.append("silent = [" + ", ".join(f'"{who}"' for who in self.trust[1].split(",")) + "]")
        for part in sorted(set(self.threads.values())):
            held = ", ".join(f'"{base}/{bits}"' for i, base, bits in regions if i == part)
            threads = ", ".join(str(thread) for thread, i in self.threads.items() if i == part)
            lines += ["[[group]]", f'name = "g{part}"', f"threads = [{threads}]", f"regions = [{held}]"]
        badge_of = lambda badge: '"any"' if badge == "any" else f'"{int(badge):#x}"'
        for one, endpoint, badge, other in ways:
            lines += ["[[way]]", f'from = "g{one}"', f'to = "g{other}"', f"by = {endpoint}", f"badge = {badge_of(badge)}"]
        for part, endpoint, badge, rights in uses:
            text = "".join(letter for letter in LETTERS if letter in rights)
            lines += ["[[use]]", f'group = "g{part}"', f"of = {endpoint}", f"badge = {badge_of(badge)}", f'rights = "{text}"']
        return "\n".join(lines) + "\n"

    def whole(self):
        return self.policy(self.uses, self.ways, self.regions)

    def cut(self, chance):
        """The entries with one less, or with another badge, a right less or the other way round, and what a line of a breach has to begin
        with."""
        kinds = [kind for kind, entries in (("use", self.uses), ("badge", self.uses), ("right", self.uses), ("way", self.ways), ("back", self.ways),
                                            ("region", self.regions)) if entries]
        kind = chance.choice(kinds) if kinds else None
        uses, ways, regions = list(self.uses), list(self.ways), list(self.regions)
        if kind in ("use", "badge", "right"):
            i = chance.randrange(len(uses))
            part, endpoint, badge, rights = uses.pop(i)
            if kind == "badge":
                uses.append((part, endpoint, chance.choice([it for it in BADGES if it != badge]), rights))
            if kind == "right" and len(rights) > 1:
                uses.append((part, endpoint, badge, rights - {chance.choice(sorted(rights))}))
            # A way lets its sender hold a capability with Write, and its receiver one with Read: such entries go, too.
            ways = [way for way in ways if way[1] != endpoint or part not in (way[0], way[3])]
            wanted = re.compile(rf"breach (?:(?:use|badge|right|way) g{part} |way .* -> g{part}$)")
        elif kind in ("way", "back"):
            one, endpoint, badge, other = ways.pop(chance.randrange(len(ways)))
            ways += [(other, endpoint, badge, one)] if kind == "back" else []
            wanted = re.compile(rf"breach way g{one} -> .* badge {badge} -> g{other}$")
        elif kind == "region":
            part, base, bits = regions.pop(chance.randrange(len(regions)))
            wanted = re.compile(rf"breach (?:region g{part} |use g{part} )")
        else:
            return None
        return kind, (uses, ways, regions), wanted

    def widened(self, chance):
        """The text of the policy with an entry more, with a wider one, or with two groups as one."""
        uses, ways = list(self.uses), list(self.ways)
        kind = chance.choice(["one group", *["badge", "rights"] * bool(uses), *["way", "use"] * bool(self.held)])
        if kind == "badge":
            uses = [(part, endpoint, "any", rights) for part, endpoint, _, rights in uses]
        elif kind == "rights":
            uses = [(*use, frozenset(LETTERS)) for *use, _ in uses]
        elif kind == "use":
            part, endpoint, *_ = chance.choice(self.held)
            uses.append((part, endpoint, chance.choice(BADGES), frozenset("r")))
        elif kind == "way" and len(set(self.threads.values())) > 1:
            one, other = chance.sample(sorted(set(self.threads.values())), 2)
            ways.append((one, chance.choice(self.held)[1], chance.choice(("any", *BADGES)), other))
        text = self.policy(uses, ways, self.regions)
        return kind, self.merged(text, chance) if kind == "one group" else text

    def merged(self, text, chance):
        """The text of a policy with two groups as one; a way within it is none."""
        groups = sorted(set(self.threads.values()))
        if len(groups) < 2:
            return text
        one, other = chance.sample(groups, 2)
        table = tomllib.loads(text.replace(f'"g{other}"', f'"g{one}"'))
        first, second = (it for it in table["group"] if it["name"] == f"g{one}")
        first["threads"] += second["threads"]
        first["regions"] = sorted({*first["regions"], *second["regions"]})
        table["group"].remove(second)
        table["way"] = [it for it in table.get("way", []) if it["from"] != it["to"]]
        return document(table)

    def owns(self, part, endpoint):
        return parts.part_at(self.memory, int(endpoint)) == part

    def lets_hold(self, part, endpoint, badge, rights, uses=None, ways=None):
        """Whether entries of a part let it hold this capability; rights of several entries add up."""
        allowed = set()
        for i, e, b, r in self.uses if uses is None else uses:
            if i == part and e == endpoint and b in ("any", badge):
                allowed |= r
        for one, e, b, other in self.ways if ways is None else ways:
            if e == endpoint and one == part and b in ("any", badge):
                allowed |= {"w"}
            if e == endpoint and other == part:
                allowed |= {"r"}
        return rights <= allowed or self.owns(part, endpoint)

    def amiss(self, uses, ways, regions):
        """What stands in slots now that entries do not allow, and between which parts a message can pass now without a way."""
        for part, base, bits in set(self.regions) - set(regions):
            if not any(i == part and int(b) <= int(base) and int(base) + 2 ** int(bits) <= int(b) + 2 ** int(n) for i, b, n in regions):
                yield f"region {base}/{bits} of part {part}"
        numbers, endpoints = set(self.threads.values()), {endpoint for _, endpoint, *_ in self.held}
        sends = {(part, endpoint, any_of(badge)) for part, endpoint, badge, rights in self.held if "w" in rights}
        hears = {(part, endpoint) for part, endpoint, _, rights in self.held if "r" in rights}
        own = {(part, endpoint) for part in numbers for endpoint in endpoints if self.owns(part, endpoint)}
        for part, endpoint, badge, rights in self.held:
            if not self.lets_hold(part, endpoint, badge, rights, uses, ways):
                yield f"endpoint {endpoint} badge {badge} of part {part}"
        for one, endpoint, badge in sends | {(*it, "any") for it in own}:
            for other, heard in hears | own:
                way = [it for it in ways if it[0] == one and it[1] == endpoint and it[2] in ("any", badge) and it[3] == other]
                if heard == endpoint and one != other and not way:
                    yield f"way {one} -> {endpoint} badge {badge} -> {other}"

    def broken(self, report):
        """What stands in slots, and what was delivered by the calls behind the layout's, that the policy does not allow."""
        for slot, endpoint, badge, rights in ENDPOINT.findall(report):
            part = parts.part_at(self.memory, int(slot))
            if part is not None and not self.lets_hold(part, endpoint, badge, letters_of(rights)):
                yield f"slot {slot} of part {part}: endpoint {endpoint} badge {badge} rights {rights}"
        lines = [line for line in report.splitlines() if re.match(r"\d+ \d+ \w+: ", line)]
        for line in lines[self.calls:]:
            sent = re.match(r"\d+ \d+ \w+: delivered (\d+) from (\d+) to (\d+) badge (\d+)", line)
            if sent:
                one, other = (parts.part_at(self.memory, int(sent[k])) for k in (2, 3))
                lets = any((one, sent[1], badge, other) in self.ways for badge in ("any", sent[4]))
                if None not in (one, other) and one != other and not lets:
                    yield line


def layouts(program, seed, count, folders):
    """The layouts of the folders, and random ones."""
    for folder in folders:
        for file in sorted(pathlib.Path(folder).glob("*.toml")):
            args = file.with_suffix(".args")
            who, after = parts.trusted_by(args) if args.exists() else (None, None)
            if args.exists() and not after:
                yield Layout(program, file.name, file.read_text(), ["--without", who] if who else [])
    def drawn(k):
        status, text = run(program, "import", "-", text=imports.layout(k)[0])
        return Layout(program, f"random {k}", text, ["--without", "loader"]) if status == 0 else None
    yield from filter(None, side_by_side(drawn, range(seed, seed + count)))


def with_calls(text, calls):
    """The text of a set-up with these calls behind its own: one that was imported has its calls in a list, to which none can be added
    behind its end."""
    table = tomllib.loads(text)
    return document({**table, "call": table.get("call", []) + tomllib.loads(calls)["call"]})


class Tried:
    """A layout held to its own policy, to wider ones and to narrower ones, and the calls behind it."""

    def __init__(self, program, layout, folder):
        self.program, self.layout, self.folder, self.chance = program, layout, pathlib.Path(folder), random.Random(layout.name)
        self.tally = dict.fromkeys(("layouts", "kept", "widened", "cut", "told", "allowed", "calls"), 0)

    def held(self, policy):
        file = self.folder / f"{id(self)}.policy.toml"
        file.write_text(policy)
        return run(self.program, "policy", str(file), "-", text=self.layout.text)

    def cut_faults(self, kind, entries, wanted):
        """What is wrong with what is told of narrower entries."""
        self.tally["cut"] += 1
        status, text = self.held(self.layout.policy(*entries))
        amiss = list(self.layout.amiss(*entries))
        self.tally["told"] += status == 1
        self.tally["allowed"] += status == 0
        if status != bool(amiss) or status == 1 and not any(wanted.match(line) for line in text.splitlines()):
            yield f"a {kind} is cut, status {status}, wanted {wanted.pattern}; {amiss}\n{self.layout.policy(*entries)}{text}"

    def faults(self):
        self.tally["layouts"] += 1
        status, text = self.held(self.layout.whole())
        self.tally["kept"] += status == 0
        if status:
            yield f"its own policy is not kept, status {status}\n{text}"
        for _ in range(2):
            kind, policy = self.layout.widened(self.chance)
            self.tally["widened"] += 1
            status, text = self.held(policy)
            if status:
                yield f"with a wider {kind} it is not kept, status {status}\n{policy}{text}"
        for cut in filter(None, (self.layout.cut(self.chance) for _ in range(3))):
            yield from self.cut_faults(*cut)
        ops, threads = (parts.MESSAGES, parts.OTHERS), list(self.layout.threads)
        calls = "".join(parts.random_call(self.chance, self.chance.choice(threads), self.chance.choice(ops)) for _ in range(parts.CALLS))
        self.tally["calls"] += parts.CALLS
        yield from self.layout.broken(run(self.program, "check", "-", text=with_calls(self.layout.text, calls))[1])

    def found(self):
        return [f"{self.layout.name}: {it}" for it in self.faults()] if self.layout.is_read and self.layout.threads else []


def main():
    program, seed, count, folders = str(pathlib.Path(sys.argv[1]).absolute()), int(sys.argv[2]), int(sys.argv[3]), sys.argv[4:]
    with tempfile.TemporaryDirectory() as folder:
        tried = [Tried(program, layout, folder) for layout in layouts(program, seed, count, folders)]
        faults = sum(side_by_side(Tried.found, tried), [])
    for fault in faults[:5]:
        print(fault)
    tally = {name: sum(it.tally[name] for it in tried) for name in tried[0].tally}
    print(", ".join(f"{name} {number}" for name, number in tally.items()) + f", faults {len(faults)}")
    sys.exit(1 if faults or not all(tally.values()) else 0)


if __name__ == "__main__":
    main()
