#!/usr/bin/env python3
"""parts.py PROGRAM FOLDER [COUNT]: random calls break nothing that `never` calls excluded.

Each layout NAME.toml of the FOLDER is asked, for each two of its threads, whether the one's part is kept from the other's, once with the
threads that its NAME.args trusts as `--without`, and once with the same threads as `--messages`. Then COUNT lists of random calls (20 where
no number is given) are made behind it: of threads in parts by any operation, and with `--messages` also sends and receives of the trusted
threads. By the report of `check` no message of an excluded pair may have been delivered, and no slot of the one's part may hold a
capability to an object that has a byte in the other's. The first list is also looked at with a pair's answer turned round: somewhere that
has to show. Of threads that flows keep apart the first's messages may not be delivered to the second, and of threads of which it is decided
that a message passes `how` has to find the calls. A part that is told with `only messages` may get no capability. In every second
list one part makes no calls, and where no line says that another may take slots from it, each of its slots holds what it held.
"""
import itertools
import pathlib
import random
import re
import sys

from program import run

CALLS = 40
MESSAGES = ("send", "nbsend", "recv", "nbrecv")
OTHERS = ("copy", "mint", "move", "mutate", "delete", "revoke", "cancel_badged", "retype", "set_space", "suspend", "resume")
HELD = re.compile(r"slot (\d+) (.*?)(?: children)?$")
TAKE = re.compile(r"^take (\d+) -> (\d+)$", re.M)
SLOT = re.compile(r"slot (\d+) (\w+) (\d+)(?: (?:radix|bits) (\d+))?")
DELIVERED = re.compile(r"\d+ \d+ \w+: delivered (\d+) from (\d+) to (\d+) ")


def trusted_by(args):
    """The words of `--without` and of `--after` in the options beside a layout."""
    words = args.read_text().split()
    given = dict(zip(words[::2], words[1::2]))
    return given.get("--without"), given.get("--after")


def parts_of(text):
    """The threads of each part with the part, and the stretches of memory with theirs."""
    threads, memory, part = {}, [], None
    for line in text.splitlines():
        words = line.split()
        if line.startswith("part "):
            part = int(words[1])
        elif line.startswith("  thread "):
            threads[int(words[1])] = part
        elif line.startswith("  memory "):
            memory.append((int(words[1]), int(words[3]), part))
    return threads, memory


def only_messages(text):
    """The parts that are told to only pass messages."""
    part, alone = None, set()
    for line in text.splitlines():
        if line.startswith("part "):
            part = int(line.split()[1])
        elif line == "  only messages":
            alone.add(part)
    return alone


def held(report):
    """What each full slot holds."""
    return {int(told[1]): told[2] for told in map(HELD.match, report.splitlines()) if told}


def changed(before, after, memory, alone, kept):
    """What slots got in parts that only pass messages, and what was lost in a part from which nothing may be taken."""
    for slot, cap in after.items():
        if part_at(memory, slot) in alone and before.get(slot) != cap:
            yield f"slot {slot} of a part of only messages got {cap}"
    for slot, cap in before.items():
        if kept is not None and part_at(memory, slot) == kept and after.get(slot) != cap:
            yield f"slot {slot} of part {kept}, from which nothing may be taken, lost {cap}"


def size_of(kind, bits, narrow):
    """The bytes of an object, by its kind and the number behind it."""
    fixed = {"endpoint": 4, "tcb": 10 if narrow else 11, "cnode": (4 if narrow else 5) + int(bits or 0), "untyped": int(bits or 0)}
    return 1 << fixed[kind]


def part_at(memory, address):
    return next((part for first, last, part in memory if first <= address <= last), None)


def random_call(chance, thread, ops):
    word = lambda: chance.choice((0, 1, 1, 1, 2, 2, 3, 4, 5, 6, 7, chance.randrange(32)))
    op = chance.choice(ops)
    keys = {"thread": thread, "op": f'"{op}"', "cap": word()}
    if op in ("copy", "mint", "move", "mutate"):
        keys |= {"index": word(), "depth": chance.choice((3, 3, 5, 64)), "src_root": word(), "src_index": word()}
    if op in ("copy", "mint"):
        keys["rights"] = chance.randrange(16)
    if op in ("mint", "mutate"):
        keys["word"] = chance.randrange(16)
    if op in ("delete", "revoke", "cancel_badged"):
        keys |= {"index": word(), "depth": chance.choice((3, 3, 5, 64))}
    if op == "retype":
        keys |= {"kind": chance.randrange(5), "size_bits": chance.choice((0, 1, 4, 8)), "root": word(), "offset": word(), "count": 1}
    if op == "set_space":
        keys |= {"root": word(), "word": 61}
    return "[[call]]\n" + "".join(f"{key} = {value}\n" for key, value in keys.items())


def broken(report, made, memory, pair, narrow):
    """What the calls behind the first ones did that an excluded pair rules out."""
    one, other = pair
    lines = report.splitlines()
    calls = [line for line in lines if re.match(r"\d+ \d+ \w+: ", line)]
    for line in calls[made:]:
        told = DELIVERED.match(line)
        if told and part_at(memory, int(told[2])) == one and part_at(memory, int(told[3])) == other:
            yield line
    for line in lines:
        told = SLOT.match(line)
        if told and part_at(memory, int(told[1])) == one:
            base = int(told[3])
            end = base + size_of(told[2], told[4], narrow) - 1
            if any(part == other and first <= end and base <= last for first, last, part in memory):
                yield line


def delivered(report, made, one, other):
    """The deliveries from the one thread to the other by the calls behind the first ones."""
    calls = [line for line in report.splitlines() if re.match(r"\d+ \d+ \w+: ", line)]
    return [line for line in calls[made:] if (told := DELIVERED.match(line)) and (int(told[2]), int(told[3])) == (one, other)]


def tried(program, layout, how, who, count):
    """Looks at one layout with its trusted threads, and yields what is broken; also how much there was to look at."""
    text = layout.read_text()
    trust = [f"--{how}", who] if who else []
    ever = run(program, "ever", *trust, "-", text=text)[1]
    if not ever.startswith("ever "):
        return
    threads, memory = parts_of(ever)
    narrow = " narrow " in ever.splitlines()[0]
    made = int(re.search(r" after (\d+)", ever)[1])
    free = [int(word) for word in re.findall(rf"^{how} (\d+)", ever, re.M) if int(word) not in threads]
    answers, apart = {}, []
    for one, other in itertools.permutations(threads, 2):
        told = run(program, "never", f"{one},{other}", *trust, "-", text=text)[1]
        answers[threads[one], threads[other]] = " excluded\n" in told
        if " excluded by flow\n" in told:
            apart.append((one, other))
        if " possible decided\n" in told and how == "without":
            found = run(program, "how", f"{one},{other}", *trust, "-", text=text)[1]
            yield True, [] if "expect = " in found else [f"{layout.name}: {one} -> {other} is decided, and how says {found.strip()}"]
    alone, takes = only_messages(ever), {(int(one), int(other)) for one, other in TAKE.findall(ever)}
    before = held(run(program, "check", "-", text=text)[1])
    for seed in range(count):
        chance = random.Random(f"{layout.name} {how} {seed}")
        calls = ""
        quiet = chance.choice(sorted(set(threads.values()))) if seed % 2 and len(set(threads.values())) > 1 else None
        callers = [thread for thread, part in threads.items() if part != quiet]
        for _ in range(CALLS):
            passes = how == "messages" and free and chance.random() < 0.3
            calls += random_call(chance, chance.choice(free), MESSAGES) if passes else \
                random_call(chance, chance.choice(callers), MESSAGES if chance.random() < 0.5 else OTHERS)
        report = run(program, "check", "-", text=text + "\n" + calls)[1]
        kept = quiet if all(other != quiet for one, other in takes) else None
        yield True, [f"{layout.name} --{how} {seed}: {line}" for line in changed(before, held(report), memory, alone, kept)]
        for one, other in apart:
            yield True, [f"{layout.name} --{how} {seed}: flows keep {one} from {other}: {line}" for line in delivered(report, made, one, other)]
        for pair, excluded in answers.items():
            yield excluded, [f"{layout.name} --{how} {seed}: part {pair[0]} -> {pair[1]}: {line}" for line in broken(report, made, memory, pair, narrow)]


def main():
    program, folder, count = sys.argv[1], pathlib.Path(sys.argv[2]), int(sys.argv[3]) if len(sys.argv) > 3 else 20
    looked, seen, faults = 0, 0, []
    for layout in sorted(folder.glob("*.toml")):
        args = layout.with_suffix(".args")
        if not args.exists():
            continue
        who, after = trusted_by(args)
        if after:
            continue
        for how in ("without", "messages") if who else ("without",):
            for excluded, wrong in tried(program, layout, how, who, count):
                looked += excluded
                seen += bool(wrong) and not excluded
                faults += wrong if excluded else []
    for fault in faults[:20]:
        print(fault)
    print(f"{looked} excluded pairs and lists of random calls, {len(faults)} broken; {seen} pairs that are not excluded, in which it happened")
    sys.exit(1 if faults or not seen or not looked else 0)


if __name__ == "__main__":
    main()
