#!/usr/bin/env python3
"""run_clients.py [--first N] PROGRAM SETUP TIMES: runs a set-up's clients by `threads` so many times, and looks at each history.

Each client's entries have to be numbered from 0 on, and to be the first of its calls in the set-up. Then the calls of
the history are made again, in its order, by `check`: each reply and each line of the state has to be the same. The
status is 0 where all calls of the set-up were made, and else 1.

With `--first N` the history has to begin with the first N calls of the set-up, in its order: with all of them where there
are fewer than N, and with as many as `limit` says where that is less. Without it, `threads` is run without the option.

It tells in how many orders the clients' calls came, and in how many runs each client was alone, which is where it made all
of its calls with no other client's call between them. Both hang on what else the machine does, so neither is wanted to be a
certain number: `cases/threads.toml` has orders that a gate makes.
"""
import argparse
import itertools
import re
import sys
import tomllib

from program import document, run

ENTRY = re.compile(r"(\d+) client (\d+) number (\d+): (\d+) (\w+): .*")


def first_calls(setup, first):
    """The clients of the calls that are made before the clients begin, in order."""
    calls = setup.get("call", [])
    return [call.get("client", 0) for call in calls[: min(first, setup.get("limit", len(calls)))]]


def faults(program, setup, text, orders, first=None):
    """What is wrong with one run. The clients whose calls came, in their order, are added to `query_orders`."""
    calls = setup.get("call", [])
    own = [[call for call in calls if call.get("client", 0) == client] for client in range(setup.get("clients", 1))]
    option = [] if first is None else ["--first", str(first)]
    status, history = run(program, "threads", *option, text=text)
    lines = history.splitlines()
    entries = [ENTRY.fullmatch(line) for line in lines if " client " in line]
    made, seen = [], [0] * len(own)
    for place, entry in enumerate(entries):
        number, client, count = (int(word) for word in entry.groups()[:3])
        if number != place + 1 or count != seen[client] or count >= len(own[client]):
            yield f"not the next entry of its client: {entry[0]}"
            return
        call = own[client][count]
        if call["op"] != entry[5]:
            yield f"not the client's call: {entry[0]}"
        made.append(call)
        seen[client] += 1
    orders.append(tuple(int(entry[2]) for entry in entries))
    wanted = first_calls(setup, first or 0)
    if list(orders[-1][: len(wanted)]) != wanted:
        yield f"other calls come first: {orders[-1]}"
    if lines[-1] != f"entries {len(made)} of {len(calls)}":
        yield f"last line {lines[-1]!r}"
    if status != (0 if len(made) == len(calls) else 1):
        yield f"status {status}"
    plain = {key: value for key, value in setup.items() if key not in ("clients", "limit")}
    plain["call"] = [{key: value for key, value in call.items() if key not in ("client", "expect")} for call in made]
    again = run(program, "check", text=document(plain))[1].splitlines()
    if [re.sub(r" client \d+ number \d+:", "", line) for line in lines[:-1]] != again[:-1]:
        yield "the history's calls, made again, give another report"


def is_each_alone(order):
    """Whether the calls of each client came with no other client's between them."""
    turns = [client for client, _ in itertools.groupby(order)]
    return len(turns) == len(set(turns))


def main():
    parser = argparse.ArgumentParser()
    parser.add_argument("--first", type=int)
    parser.add_argument("program")
    parser.add_argument("setup")
    parser.add_argument("times", type=int)
    given = parser.parse_args()
    program, times = given.program, given.times
    with open(given.setup, encoding="utf-8") as file:
        text = file.read()
    setup = tomllib.loads(text)
    wrong = 0
    orders = []
    for _ in range(times):
        bad = list(faults(program, setup, text, orders, given.first))
        wrong += bool(bad)
        for fault in bad:
            print(fault)
    alone = sum(map(is_each_alone, orders))
    different = len(set(orders))
    print(f"{times} runs, {wrong} wrong, {alone} with each client alone, {different} orders")
    return 1 if wrong or not orders else 0


sys.exit(main())
