#!/usr/bin/env python3
"""groups_of_clients.py PROGRAM COUNT [SEED]: what `explore --ends` tells of COUNT random set-ups, beside what `explore` tells of them.

A set-up has five threads, four clients and four endpoints, of which two also have a capability with a badge, in either profile. Its
calls send and receive, suspend and resume threads and cancel badged sends; some words lead to none of these objects, and of some
set-ups calls are made first. Which clients form a group is worked out here, from the calls, and from the threads that wait behind the
first calls, as `check` tells them. Each call has the same answers by both reports, the same expectations are met, the ends of the
groups make the ends of all, and some order of all clients ends stuck just where one of a group does. Where a call of another operation
is left, all clients are one group, and both tell the same states.

In the end two set-ups whose clients form more than one group are compared with each other, and have to differ.
"""
import itertools
import math
import random
import re
import sys

from program import document, run, side_by_side

THREADS, ENDPOINTS, CLIENTS, MOST_CALLS = 5, 4, 4, 3
FIRST_TCB = {"wide": 2048, "narrow": 1024}
MESSAGES = ["send", "nbsend", "recv", "nbrecv"]
STOPS = ["suspend", "resume"]
KEEPS = [*MESSAGES, *STOPS, "cancel_badged"]
WEIGHTS = [4, 4, 4, 4, 1, 1, 2]
EXPECTATIONS = ["done", "waiting", "delivered", "dropped", "empty"]
ROOT, FIRST_THREAD, FIRST_ENDPOINT = 1, 2, 2 + THREADS
# Copies with a badge, each by its slot, of the endpoints with these slots.
BADGED = {FIRST_ENDPOINT + ENDPOINTS + n: FIRST_ENDPOINT + n for n in range(2)}
GROUP = re.compile(r"(?m)^clients((?: \d+)+) states (\d+) ends (\d+) orders (\d+) stuck (\d+)$")
WAITS = re.compile(r"(?m)^thread (\d+) (?:sending|receiving) (\d+)")


def text_of(profile, calls):
    return document({"format": 2, "profile": profile, "memory_bits": 16, "root_radix": 4, "threads": THREADS, "endpoints": ENDPOINTS,
                     "clients": CLIENTS, "call": calls})


def call_drawn(draw, client, threads, endpoint):
    """A call of a client, by the number of one of its threads, that mostly invokes an endpoint or one of these threads."""
    op = draw.choices(KEEPS, WEIGHTS)[0]
    slot = FIRST_ENDPOINT + endpoint
    slot = draw.choice([slot, *(badged for badged, copied in BADGED.items() if copied == slot)])
    call = {"client": client, "thread": draw.choice(threads), "op": op, "cap": slot}
    if op in STOPS:
        call["cap"] = FIRST_THREAD + draw.choice(threads)
    if op == "cancel_badged":
        call |= {"cap": ROOT, "index": slot}
    if draw.random() < 0.1:
        call["cap"] = draw.choice([FIRST_THREAD, FIRST_ENDPOINT, 14])
    return call | ({"label": draw.randrange(4)} if "send" in op else {})


def drawn(draw):
    """Calls of clients that mostly keep to an endpoint or two each, and how many of them are made first."""
    profile = draw.choice(["wide", "narrow"])
    calls = []
    for client in range(CLIENTS):
        own = [draw.randrange(THREADS), *([draw.randrange(THREADS)] if draw.random() < 0.2 else [])]
        used = [draw.randrange(ENDPOINTS), *([draw.randrange(ENDPOINTS)] if draw.random() < 0.3 else [])]
        for _ in range(draw.randint(1, MOST_CALLS)):
            call = call_drawn(draw, client, own, draw.choice(used))
            call["thread"] = FIRST_TCB[profile] * (1 + call["thread"])
            call |= {"expect": draw.choice(EXPECTATIONS)} if draw.random() < 0.4 else {}
            calls.append(call)
    draw.shuffle(calls)
    if draw.random() < 0.1:
        calls.append({"client": 0, "thread": FIRST_TCB[profile], "op": "delete", "cap": ROOT, "index": 15})
    mints = [{"thread": FIRST_TCB[profile], "op": "mint", "cap": ROOT, "index": slot, "src_index": copied, "word": slot}
             for slot, copied in BADGED.items()]
    return profile, mints + calls, len(mints) + draw.choice([0, 0, 0, 1, 2, 4])


def joined(touched):
    """Clients that touch one thing, directly or through others, as a set of sorted lists."""
    groups = [({client}, set(things)) for client, things in enumerate(touched)]
    for one, other in itertools.combinations(range(len(groups)), 2):
        if groups[one] is not groups[other] and groups[one][1] & groups[other][1]:
            both = groups[one][0] | groups[other][0], groups[one][1] | groups[other][1]
            groups = [both if it is groups[one] or it is groups[other] else it for it in groups]
    return {tuple(sorted(clients)) for clients, _ in groups}


def groups_of(program, profile, calls, first):
    """Which clients form a group, worked out from the calls that are left, and from who waits behind the first ones."""
    left = calls[first:]
    if any(call["op"] not in KEEPS for call in left):
        return {tuple(range(CLIENTS))}
    _, report = run(program, "check", "-", text=text_of(profile, calls[:first]))
    waits = {int(thread): int(endpoint) for thread, endpoint in WAITS.findall(report)}
    endpoints = [FIRST_ENDPOINT + n for n in range(ENDPOINTS)]
    bases = {slot: base for slot, base in zip(endpoints, sorted({int(it) for it in re.findall(r"(?m)^endpoint (\d+)", report)}))}
    bases |= {slot: bases[copied] for slot, copied in BADGED.items()}
    tcbs = {FIRST_THREAD + n: FIRST_TCB[profile] * (1 + n) for n in range(THREADS)}
    touched = [set() for _ in range(CLIENTS)]
    for call in left:
        # An index names a slot where the word leads to the root CNode.
        slots = [call["cap"], *([call["index"]] if call["op"] == "cancel_badged" and call["cap"] == ROOT else [])]
        threads = [call["thread"], *([tcbs[call["cap"]]] if call["op"] in STOPS and call["cap"] in tcbs else [])]
        touched[call["client"]] |= {("endpoint", waits[it]) if it in waits else ("thread", it) for it in threads}
        touched[call["client"]] |= {("endpoint", bases[slot]) for slot in slots if slot in bases}
    replies = re.findall(r"(?m)^\d+ \d+ \w+: (\w+)", report)
    # The last call of a thread that was answered that it waits is the one that does.
    waiting = {call["thread"]: call["client"] for call, reply in zip(calls, replies) if reply == "waiting" and call["thread"] in waits}
    for thread, client in waiting.items():
        touched[client] |= {("endpoint", waits[thread])}
    return joined(touched)


def answers_of(report):
    """Of each call its mark, and its answers whatever the order is that is told of each."""
    found = {}
    for head, line in re.findall(r"(?m)^(\d+ client .*)$|^  (\d+\.\d+ .*)$", report):
        if head:
            found[head] = answers = set()
        else:
            answers.add(re.sub(r" \[not met\] (by|in order to) .*", "", line.split(" ", 1)[1]))
    return found


def faults(program, profile, calls, first):
    """What is wrong, how many groups there are, and what both tell of calls."""
    text = text_of(profile, calls)
    status, whole = run(program, "explore", "--first", str(first), "-", text=text)
    status_by_groups, report = run(program, "explore", "--ends", "--first", str(first), "-", text=text)
    groups = [([int(it) for it in clients.split()], *map(int, counts)) for clients, *counts in GROUP.findall(report)]
    wanted = groups_of(program, profile, calls, first)
    ends = int(re.search(r"(?m)^states \d+ ends (\d+)$", whole)[1])
    stuck = int(re.search(r"(?m)^orders \d+ stuck (\d+)$", whole)[1])
    wrong = []
    wrong += ["the groups"] if {tuple(clients) for clients, *_ in groups} != wanted else []
    wrong += ["the answers"] if answers_of(whole) != answers_of(report) else []
    wrong += ["the ends"] if math.prod(count for _, _, count, _, _ in groups) != ends else []
    wrong += ["what ends stuck"] if (stuck > 0) != any(it[4] for it in groups) or (stuck > 0) != ("\nstuck.1 " in report) else []
    wrong += ["expectations"] if whole.splitlines()[-1] != report.splitlines()[-1] or status != status_by_groups else []
    if len(groups) == 1 and [f"states {groups[0][1]} ends", f"orders {groups[0][3]} stuck"] != [
            " ".join(line.split()[:3]) for line in whole.splitlines()[-3:-1]]:
        wrong.append("the states of one group")
    return wrong, len(groups), answers_of(report)


def main():
    program, count = sys.argv[1], int(sys.argv[2])
    draw = random.Random(int(sys.argv[3]) if len(sys.argv) > 3 else 1)
    asked = [drawn(draw) for _ in range(count)]
    done = side_by_side(lambda it: faults(program, *it), asked)
    wrong = 0
    for (profile, calls, first), (found, _, _) in zip(asked, done):
        if found:
            wrong += 1
            print(text_of(profile, calls) + f"# --first {first}: " + ", ".join(found) + "\n")
    several = [told for _, number, told in done if number > 1]
    print(f"groups of clients: {len(asked)} set-ups, {len(several)} with more than one group, {wrong} differ")
    return 0 if not wrong and len(several) > 1 and several[0] != several[1] else 1


if __name__ == "__main__":
    sys.exit(main())
