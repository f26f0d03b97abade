#!/usr/bin/env python3
"""revokes.py PROGRAM FOLDER..: each revoke that `audit` tells, beside the same revoke made as a call.

Of each set-up in the FOLDERs and in the folders in them, the revokes that `audit` tells are made, each by a thread that is ready and
whose capability space leads to a CNode with the slot: a call is added behind those of the set-up. Compared are the slots that
`clears` counts and the objects behind `ends` with those that the report has lost, and the lines of `audit --slot` with those of the
trace below the call, but for the lines of siblings, which an audit does not have.

How many revokes no thread that is ready can make is told too. In the end one audit is compared with another revoke's trace, and has
to differ.
"""
import pathlib
import re
import sys
import tomllib

from program import document, run, side_by_side

SLOT_BYTES = {"wide": 32, "narrow": 16}
NAMED = re.compile(r"thread (?P<thread>\d+).*|  as (?P<first>\d+).*|  reach \d+ (?P<word>\d+) slot \d+ (?P<capability>.*)")
CNODE = re.compile(r"cnode (\d+) radix (\d+) guard (\d+) size (\d+)")
SLOT = re.compile(r"slot (\d+) (.*?)(?: children)?")
OBJECT = re.compile(r"(tcb|endpoint|cnode) (\d+)|(untyped) (\d+) bits (\d+)")
KINDS = {"tcb": "thread"}
REFUSED = 2


def with_call(setup, call):
    """The text of a set-up with one call more behind the others."""
    return document({**setup, "call": [*setup.get("call", []), call]})


def slots_in(report):
    """What a report says of each full slot, by its address."""
    found = (SLOT.fullmatch(line) for line in report.splitlines())
    return {int(match[1]): match[2] for match in found if match}


def objects_in(slots):
    """The objects that capabilities name, as an audit tells that they end."""
    matches = filter(None, map(OBJECT.match, slots.values()))
    return {f"untyped {it[4]} bits {it[5]}" if it[3] else f"{KINDS.get(it[1], it[1])} {it[2]}" for it in matches}


def reached_by(audit):
    """The words and capabilities that each thread reaches, by its address: what is told of it, or of the first thread that it is told as."""
    reached = {}
    for told in filter(None, map(NAMED.fullmatch, audit.splitlines())):
        if told["thread"]:
            thread = told["thread"]
            reached[thread] = []
        elif told["first"]:
            reached[thread] = reached[told["first"]]
        else:
            reached[thread].append((told["word"], told["capability"]))
    return reached


def calls_of(audit, profile):
    """Of each slot that a thread which is ready can revoke, one such call."""
    reached = reached_by(audit)
    calls = {}
    for thread in re.findall(r"(?m)^thread (\d+)(?: @\S+)? ready$", audit):
        for word, cnode in ((word, CNODE.match(capability)) for word, capability in reached[thread]):
            if not cnode:
                continue
            base, radix, guard, size = map(int, cnode.groups())
            for number in range(1 << radix):
                call = {"thread": int(thread), "op": "revoke", "cap": int(word), "index": guard << radix | number, "depth": size + radix}
                calls.setdefault(base + number * SLOT_BYTES[profile], call)
    return calls


def told_revokes(audit):
    """Of each revoke that is told, by its slot, how many slots it clears and which objects it ends."""
    revokes = {}
    for line in audit.splitlines():
        if told := re.fullmatch(r"revoke (\d+) .* clears (\d+)", line):
            revokes[int(told[1])] = (int(told[2]), ended := set())
        elif line.startswith("  ends "):
            ended.add(line.removeprefix("  ends ").split(" @")[0])
    return revokes


def changes_in(text):
    """The lines of what a call changes, without those of siblings."""
    return [line for line in text.splitlines() if line.startswith(("  + ", "  - ")) and line.split()[1] != "sibling"]


def faults(program, text, before, slot, told, call):
    """What is wrong with what is told of one revoke."""
    setup = with_call(tomllib.loads(text), call)
    _, report = run(program, "check", text=setup)
    after = slots_in(report)
    number = len(tomllib.loads(setup)["call"])
    if f"\n{number} {call['thread']} revoke: done\n" not in "\n" + report:
        yield "the revoke is not done"
    cleared, ended = len(before.keys() - after.keys()), objects_in(before) - objects_in(after)
    if told != (cleared, ended):
        yield f"told {told}, and the report has lost {cleared}, {ended}"
    _, trace = run(program, "trace", text=setup)
    _, audit = run(program, "audit", "--slot", str(slot), text=text)
    made = changes_in(trace[trace.index(f"\n{number} {call['thread']} revoke: "):])
    if changes_in(audit) != made:
        yield "other changes than those of the trace"


def faults_in(program, path):
    """How many revokes of a set-up are compared, how many no thread can make, and what is wrong."""
    text = path.read_bytes().decode("utf-8", "replace")
    status, audit = run(program, "audit", text=text)
    if status == REFUSED:
        return 0, 0, []
    before = slots_in(run(program, "check", text=text)[1])
    told, calls = told_revokes(audit), calls_of(audit, audit.split()[2])
    wrong = [f"{path}: revoke {slot}: {fault}" for slot in told.keys() & calls.keys()
             for fault in faults(program, text, before, slot, told[slot], calls[slot])]
    return len(told.keys() & calls.keys()), len(told.keys() - calls.keys()), wrong


def differs(program, text):
    """Whether what is told of the set-up's first revoke differs from its last revoke, made as a call."""
    _, audit = run(program, "audit", text=text)
    told, calls = told_revokes(audit), calls_of(audit, audit.split()[2])
    first, last = min(told), max(told)
    before = slots_in(run(program, "check", text=text)[1])
    return len(list(faults(program, text, before, first, told[first], calls[last]))) > 1


def main():
    program, folders = sys.argv[1], map(pathlib.Path, sys.argv[2:])
    paths = sorted(path for folder in folders for path in folder.rglob("*.toml"))
    found = side_by_side(lambda path: faults_in(program, path), paths)
    wrong = [fault for _, _, faults_of_one in found for fault in faults_of_one]
    for fault in wrong:
        print(fault)
    compared, unmade = (sum(row[place] for row in found) for place in (0, 1))
    print(f"{compared} revokes as they are told, {unmade} more that no thread can make; {len(wrong)} wrong")
    planted = next(path for path in paths if path.name == "revoke_of_everything.toml").read_text()
    if not differs(program, planted):
        print("no fault where another revoke is told")
        return 1
    return 1 if wrong or not compared else 0


if __name__ == "__main__":
    sys.exit(main())
