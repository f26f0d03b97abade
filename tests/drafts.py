#!/usr/bin/env python3
"""drafts.py PROGRAM SEED COUNT FOLDER..: the policy that a layout keeps now, and the same with one entry cut.

The layouts are those of the FOLDERs, as random_policies.py has them or with the trust of NAME.policy.toml, and COUNT random ones,
drawn from SEED. Of each `draft` is asked for behind all calls and behind half of them. The layout has to keep the
draft, and nothing of it may be unused; of a trusted thread whose control block a part has, the draft has a comment, and the line
`breach thread` is the only one. The draft has the parts that `ever` tells, or joins some of them. The
comments above a group join its threads, by one thread less than it has. Then each table of a way, a use or a
take and each region in turn is taken out, MOST of them at the most, and so is each of the entries that tables with lists stand for: a line
of a breach has to be told."""
import pathlib
import random
import re
import sys
import tempfile
import tomllib

import random_lists
import random_policies
from program import answer, document

MOST = 12
ENTRY = re.compile(r"  \{ (?:from|group) = .*\},\n")
REGION = re.compile(r', regions = \["[^"]*"\]|"[^"]*/\d+", |, "[^"]*/\d+"')
NOTE = "# No policy allows "
COMMENT = re.compile(r"  # @?\w+ (?:has hold of|and|can hand|can answer) .*?(?:, and of (\d+) more)?(?:; trust it with --without\?)?")


def trust_of(policy):
    """The options of `ever` that trust whom a policy trusts."""
    said = tomllib.loads(policy)
    for option, key in (("--without", "silent"), ("--messages", "messages")):
        if said.get(key):
            yield from (option, ",".join(str(who) for who in said[key]))
    if "after" in said:
        yield from ("--after", str(said["after"]))


def layouts(program, seed, count, folders):
    """The name of each layout, its text, and the options that trust some of its threads."""
    for folder in folders:
        for file in sorted(pathlib.Path(folder).glob("*.policy.toml")):
            name = file.name.removesuffix(".policy.toml")
            yield name, (pathlib.Path(folder) / f"{name}.toml").read_text(), list(trust_of(file.read_text()))
    for layout in random_policies.layouts(program, seed, count, folders):
        if not layout.name.endswith(".policy.toml"):
            yield layout.name, layout.text, layout.trust
            yield f"{layout.name}, half of it", layout.text, [*layout.trust, "--after", str(layout.calls // 2)]


def cuts(draft):
    """The draft with one table less, for each way, use and take, and with one region less."""
    for form in (ENTRY, REGION):
        for found in form.finditer(draft):
            yield found[0], draft[:found.start()] + draft[found.end():]


def single_cuts(policy):
    """A policy without lists, with one entry less than it stands for."""
    entries = random_lists.entries_of(policy)
    for key in random_lists.EXPANDED:
        for place, entry in enumerate(entries[key]):
            yield str(entry), document({**entries, key: entries[key][:place] + entries[key][place + 1:]})


def joined(draft):
    """Of each table of a group, how many threads the comments above it join to the first: each one, or those of which one has hold."""
    count = 0
    for line in draft.splitlines():
        if found := COMMENT.fullmatch(line):
            count += 1 + int(found[1] or 0)
        elif line.startswith("  { name = "):
            yield count
            count = 0


class Drafts:
    """The drafts of layouts, what was asked of them, and what was wrong."""

    def __init__(self, program, folder):
        self.program, self.file = program, pathlib.Path(folder) / "policy.toml"
        self.tally = {"drafts": 0, "groups": 0, "ways": 0, "uses": 0, "takes": 0, "notes": 0, "cut": 0, "told": 0}

    def held(self, policy, text):
        self.file.write_text(policy)
        return answer(self.program, "policy", str(self.file), "-", text=text)

    def faults(self, name, text, trust):
        """What is wrong with the draft of a layout."""
        status, ever, _ = answer(self.program, "ever", *trust, "-", text=text)
        drafted, draft, err = answer(self.program, "draft", *trust, "-", text=text)
        if drafted != status:
            yield f"{name}: ever ends with {status}, and draft with {drafted}\n{err}"
        if status or drafted:
            return
        policy = tomllib.loads(draft)
        self.tally["drafts"] += 1
        groups = len(policy["group"]) + len(policy.get("alone", []))
        self.tally["groups"] += groups
        for key in ("way", "use", "take"):
            self.tally[f"{key}s"] += len(policy[key])
        self.tally["notes"] += draft.count(NOTE)
        parts = int(re.search(r"^parts (\d+) ", ever, re.M)[1])
        if not groups <= parts:
            yield f"{name}: {parts} parts, and in the draft\n{draft}"
        if [*joined(draft)] != [len(group["threads"]) - 1 for group in policy["group"]]:
            yield f"{name}: the comments do not join the threads of each group\n{draft}"
        held, kept, err = self.held(draft, text)
        breaches = [line for line in kept.splitlines() if line.startswith("breach ") and not line.startswith("breach thread ")]
        if breaches or held != (1 if NOTE in draft else 0) or not kept.endswith(" unused 0\n"):
            yield f"{name} {trust}: its own draft is not kept, status {held}\n{draft}{kept}{err}"
        chance = random.Random(name)
        found, single = list(cuts(draft)), list(single_cuts(policy))
        for entry, less in [*chance.sample(found, min(MOST, len(found))), *chance.sample(single, min(MOST, len(single)))]:
            self.tally["cut"] += 1
            held, kept, err = self.held(less, text)
            breaches = [line for line in kept.splitlines() if line.startswith("breach ") and not line.startswith("breach thread ")]
            if held == 1 and breaches:
                self.tally["told"] += 1
            else:
                yield f"{name} {trust}: nothing is told without{entry}, status {held}\n{draft}{kept}{err}"


def main():
    program, seed, count, folders = str(pathlib.Path(sys.argv[1]).absolute()), int(sys.argv[2]), int(sys.argv[3]), sys.argv[4:]
    with tempfile.TemporaryDirectory() as folder:
        drafts = Drafts(program, folder)
        faults = [fault for layout in layouts(program, seed, count, folders) for fault in drafts.faults(*layout)]
    for fault in faults[:5]:
        print(fault)
    print(", ".join(f"{name} {number}" for name, number in drafts.tally.items()) + f", faults {len(faults)}")
    return 1 if faults or not all(drafts.tally.values()) else 0


sys.exit(main())
