#!/usr/bin/env python3
"""beside_check.py PROGRAM FOLDER: what `trace`, `why`, `migrate` and `record` write for each set-up in the folders of FOLDER, compared with
what `check` writes. A refused set-up gets the line of its refusal; for any other these are compared.

The trace has the report's lines of the calls, its last line and its exit status; a call that is refused, dropped or finds nothing has no
changes; a line that goes was there, and one that comes was not; and the state behind the last call gives the report's lines of the state.
The state behind each call, or behind the last one of a long run, gives the forest that `tree` writes, siblings in its order. The lines
of `why` are among those of the trace. With `--ways` there are lines of ways besides, and nothing else is another: each call by a thread
that is ready has one of the word `cap` first, and none fails of a call that is not refused.

`why` has the report's lines of the refused calls, each with one to four lines below it, how many there are, the report's last line and
its exit status. Where there is a NAME.why, each call is also chosen by its number: there are its lines alone, or `not refused`; of a
number that no call has there is nothing, and the status is 4.

`migrate` makes of a set-up of format 1 one of format 2 with the same report and the same exit status, and `check` says the same of it from
standard input. By `migrate` that one is refused, since it has another format.

`record` writes the set-up in all but what its calls expect: each expects the reply that the report shows, and of a reply that is too long
for an expectation all but the words of the message. By `check` each expectation of it is met. What is recorded of an exercise, marked by
itself, is all right."""
import itertools
import pathlib
import re
import sys
import tomllib

from program import run, tried

KINDS = ["thread", "inbox", "endpoint", "slot", "selfheld", "sibling"]
CALL = re.compile(r"[1-9][0-9]* [0-9]+ [a-z_]+: ")
REFUSED = re.compile(r"[1-9][0-9]* [0-9]+ [a-z_]+: refused ")
WITHOUT_CHANGES = re.compile(r"[0-9]+ [0-9]+ [a-z_]+: (refused|dropped|empty)\b")
REPLY = re.compile(r"\d+ \d+ [a-z_]+: ([a-z0-9 /]+?)(?: \[(?:met|not met: .*)\])?")
LONGEST_EXPECTATION = 120
FIRST_FORMAT = re.compile(rb"^format *= *1 *(#.*)?$", re.MULTILINE)
MOST_FORESTS = 12
ABSENT = 4
ANOTHER_FORMAT = (2, "set-up refused 204 at top key format\n")


def key_of(line):
    """The kind and the address that a line of a state is about: at most one line has them."""
    kind, address = line.split(" ")[:2]
    return KINDS.index(kind), int(address)


def steps_of(trace):
    """The line of the boot and of each call, with the changes below it."""
    steps = []
    for line in trace.splitlines()[1:-1]:
        if line.startswith(("  - ", "  + ")):
            steps[-1][1].append((line[2], line[4:]))
        elif not line.startswith(("name ", "  ")):
            steps.append((line, []))
    return steps


def reasons_of(trace):
    """The lines of `why` for the refused calls: each call's line, and those below it that are neither words nor changes."""
    reasons = []
    for line in trace.splitlines()[1:-1]:
        if CALL.match(line):
            reasons.append([line])
        elif line.startswith("  ") and not line.startswith(("  with", "  - ", "  + ")):
            reasons[-1].append(line)
    return [line for told in reasons if len(told) > 1 or REFUSED.match(told[0]) for line in told]


def apply(state, changes):
    """Applies the changes of one call, and tells which do not fit."""
    keys = [key_of(line) for _, line in changes]
    if keys != sorted(keys):
        yield "changes that are out of order"
    for (sign, line), key in zip(changes, keys):
        if sign == "-":
            if state.pop(key, None) != line:
                yield f"it takes away what was not there: {line}"
        elif key in state:
            yield f"it adds what is there: {line}"
        else:
            state[key] = line


def report_lines(state):
    """The report's lines of a state: without what waiting threads send and from what slots are derived, but with the inboxes in
    the threads' lines and `children` in those of slots."""
    parents = {int(found[1]) for line in state.values() if (found := re.search(r" under ([0-9]+)", line))}
    for (kind, address), line in sorted(state.items()):
        if KINDS[kind] == "thread":
            inbox = state.get((KINDS.index("inbox"), address), "")
            yield re.sub(r"(sending [0-9]+).*", r"\1", line) + re.sub(r"^inbox [0-9]+", " inbox", inbox)
        elif KINDS[kind] == "slot":
            yield re.sub(r"( under [0-9]+)?( original)?$", "", line) + (" children" if address in parents else "")
        elif KINDS[kind] not in ("inbox", "sibling"):
            yield line


def forest_lines(state, names):
    """The lines of `tree`: each full slot below the one that it is `under`, behind the sibling that it stands after."""
    slots = {address: line for (kind, address), line in state.items() if KINDS[kind] == "slot"}
    behind = {int(line.split(" ")[3]): address for (kind, address), line in state.items() if KINDS[kind] == "sibling"}
    first = {}
    for address in slots.keys() - set(behind.values()):
        under = re.search(r" under ([0-9]+)", slots[address])
        first.setdefault(int(under[1]) if under else None, []).append(address)

    def below(under, depth):
        for address in sorted(first.get(under, [])):
            while address is not None:
                held = re.sub(r"^slot [0-9]+ |( under [0-9]+)?( original)?$", "", slots[address])
                found = names.get(held.removeprefix("tcb "), []) if held.startswith("tcb ") else []
                yield "  " * depth + f"{address} {held}" + (f" @{found[0]}" if len(found) == 1 else "")
                yield from below(address, depth + 1)
                address = behind.get(address)

    yield from below(None, 0)


def names_in(trace):
    """The names of each word."""
    names = {}
    for name, word in re.findall(r"^name (\S+) ([0-9]+)$", trace, re.M):
        names.setdefault(word, []).append(name)
    return names


def faults_of_trace(program, setup, report, trace, why):
    """What is wrong with a trace."""
    steps, state, names = steps_of(trace), {}, names_in(trace)
    for heading, changes in steps:
        if changes and WITHOUT_CHANGES.match(heading):
            yield f"changes of {heading}"
        for fault in apply(state, changes):
            yield f"{heading}: {fault}"
        made = int(heading.split(" ")[0])
        if made == len(steps) - 1 or len(steps) <= MOST_FORESTS:
            _, tree = run(program, "tree", "--after", str(made), setup)
            if list(forest_lines(state, names)) != tree.splitlines()[1:]:
                yield f"{heading}: another forest than that of tree"
    if reasons_of(trace) != why.splitlines()[:-2]:
        yield "other reasons than those of why"
    calls = [heading for heading, _ in steps if CALL.match(heading)]
    told = [*calls, *report_lines(state), trace.splitlines()[-1]]
    if told != report.splitlines():
        yield "the changes do not give the report"


def blocks_of(why):
    """Each call's line with the lines below it."""
    blocks = []
    for line in why.splitlines(keepends=True):
        if line.startswith("  "):
            blocks[-1].append(line)
        else:
            blocks.append([line])
    return blocks


def faults_of_all(calls, report, why):
    """What is wrong with what is said of all refused calls."""
    *blocks, refused, expected = blocks_of(why)
    if [block[0] for block in blocks] != [line for line in calls if REFUSED.match(line)]:
        yield "other lines of refused calls than in the report"
    if any(not 2 <= len(block) <= 5 for block in blocks):
        yield "a refused call without one to four lines"
    if refused != [f"refused {len(blocks)} of {len(calls)}\n"] or expected != report[-1:]:
        yield "another end"


def faults_of_chosen(program, setup, calls, why, status):
    """What is wrong with what is said of each call alone, and of the numbers before the first and behind the last."""
    of_refused = {block[0]: "".join(block) for block in blocks_of(why)[:-2]}
    for number, line in enumerate(calls, 1):
        wanted = of_refused.get(line, line + "  not refused\n")
        if run(program, "why", "--call", str(number), setup) != (status, wanted):
            yield f"call {number} alone is told in another way"
    for number in (0, len(calls) + 1):
        if run(program, "why", "--call", str(number), setup) != (ABSENT, ""):
            yield f"call {number} is not absent"


def faults_of_migrated(program, migrated, wanted):
    """What is wrong with what a set-up was migrated to."""
    status, text = migrated
    if status != 0:
        yield f"status {status} of the migration"
    if not re.search(r"^format = 2$", text, re.MULTILINE):
        yield "what comes out is of another format than 2"
    if run(program, "check", text=text) != wanted:
        yield "what comes out has another report or another status"
    if run(program, "migrate", text=text) != ANOTHER_FORMAT:
        yield "what comes out is migrated again"


def expectation(reply):
    """What is to be expected of a reply."""
    return reply if len(reply) <= LONGEST_EXPECTATION else reply.partition(" words ")[0] + " words"


def faults_of_recorded(program, setup, report, recorded):
    """What is wrong with what a set-up is recorded as."""
    status, text = recorded
    wanted = tomllib.loads(setup.read_text())
    replies = [found[1] for line in report.splitlines() if (found := REPLY.fullmatch(line))]
    if len(replies) != len(wanted.get("call", [])):
        yield f"{len(replies)} replies"
    for call, reply in zip(wanted.get("call", []), replies):
        call["expect"] = expectation(reply)
    if status or tomllib.loads(text) != wanted:
        yield f"recorded with status {status}, and another set-up: {text[:300]!r}"
    status, checked = run(program, "check", "-", text=text)
    if status or not checked.endswith(f"expected {len(replies)} of {len(replies)}\n"):
        yield f"what is recorded is not met: {checked[-200:]!r}"
    status, marks = run(program, "marks", "-", text=text)
    if status or not marks.endswith(f"marks {len(replies)} of {len(replies)} open 0\n"):
        yield f"what is recorded is not right: {marks[-200:]!r}"


def faults_of_ways(told, trace, status):
    """What is wrong with a trace that has the ways of words."""
    lines = told[1].splitlines(keepends=True)
    if told[0] != status or [line for line in lines if not line.startswith("  way ")] != trace.splitlines(keepends=True):
        yield "with its ways the trace has other lines besides, or another status"
    for at, line in enumerate(lines):
        if CALL.match(line) and lines[at + 2].startswith("  way cap ") == bool(re.search(r": refused 10[01]\b", line)):
            yield f"{line.strip()} has ways, and looks nothing up, or the other way round"
        if CALL.match(line) and ": refused " not in line:
            ways = itertools.takewhile(lambda it: it.startswith("  way "), lines[at + 2:])
            yield from (f"{line.strip()} is done, and {way.strip()}" for way in ways if ": " in way)


def faults(program, setup):
    """What is wrong with what is said of a set-up."""
    (status, report), recorded, *told = (run(program, command, setup) for command in ("check", "record", "trace", "why"))
    given, *migrated = (run(program, it, text=setup.read_bytes()) for it in ("check", "migrate")) if is_first(setup) else [(status, report)]
    if given != (status, report):
        yield "another report or another status from standard input"
    if status == 2:
        yield from (f"wanted the refusal {report}got {it}" for it in (recorded, *told, *migrated) if it != (status, report))
        return
    yield from (f"status {it[0]}, and that of check is {status}" for it in told if it[0] != status)
    trace, why = (text for _, text in told)
    yield from faults_of_trace(program, setup, report, trace, why)
    yield from faults_of_ways(run(program, "trace", "--ways", setup), trace, status)
    lines = report.splitlines(keepends=True)
    calls = [line for line in lines if CALL.match(line)]
    yield from faults_of_all(calls, lines, why)
    if setup.with_suffix(".why").exists():
        yield from faults_of_chosen(program, setup, calls, why, status)
    yield from faults_of_recorded(program, setup, report, recorded)
    if migrated:
        yield from faults_of_migrated(program, *migrated, (status, report))


def is_first(setup):
    return FIRST_FORMAT.search(setup.read_bytes()) is not None


def main():
    program, folder = sys.argv[1], pathlib.Path(sys.argv[2])
    setups = sorted(folder.glob("*/*.toml"))
    chosen, migrated = sum(it.with_suffix(".why").exists() for it in setups), sum(map(is_first, setups))
    passed, failed = tried(setups, lambda setup: faults(program, setup))
    print(f"{passed} set-ups with traces, reasons and records as their reports are, {chosen} of them call by call, {migrated} migrated; {failed} not")
    return 1 if failed or not chosen or not migrated else 0


if __name__ == "__main__":
    sys.exit(main())
