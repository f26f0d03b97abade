#!/usr/bin/env python3
"""orders_one_by_one.py PROGRAM COUNT [SEED]: what `explore` tells of COUNT random set-ups, beside all orders made one by one.

A set-up has three clients with up to three calls each, of all fifteen operations, in either profile. Each order is made by `check` of a
set-up with just its calls, as far as the next call's thread is ready. Compared with the report are: the answers of each call in the
order in which they are first found, the shortest order of each that is not met, the mark of each call, each way to end stuck with
its order, how many orders there are and how many end stuck, the expectations that are met in every order, and the status. Here no two
orders are taken for one, so the counts of states are only compared with what they can't be past.

In the end two reports are compared with what another set-up's orders come to, and have to differ.
"""
import os
import random
import re
import sys

from program import document, run, side_by_side

THREADS, ENDPOINTS = 3, 2
CLIENTS = 3
MOST_CALLS = 3
# The slots of the root CNode: itself, the threads, the endpoints, the untyped region, and some that are empty at first.
SLOTS = range(1, 12)
OPERATIONS = ["retype", "copy", "mint", "move", "mutate", "delete", "revoke", "cancel_badged", "send", "nbsend", "recv", "nbrecv",
              "set_space", "suspend", "resume"]
# Waiting and what ends it come more often.
WEIGHTS = [2, 2, 2, 1, 1, 2, 2, 2, 6, 2, 6, 2, 1, 3, 3]
EXPECTATIONS = ["done", "waiting", "delivered", "refused", "dropped", "empty"]
TOP = {"wide": (16, 32768), "narrow": (16, 32768)}
RUNNING = re.compile(r"(?m)^thread (\d+) (ready|inactive|sending \d+|receiving \d+)")
DELIVERED = re.compile(r"delivered \d+ from (\d+) to (\d+) ")


def text_of(profile, calls):
    memory_bits, base = TOP[profile]
    return document({"format": 2, "profile": profile, "memory_bits": memory_bits, "root_radix": 4, "threads": THREADS, "endpoints": ENDPOINTS,
                     "clients": CLIENTS, "untyped": [{"base": base, "bits": 12}], "call": calls})


def states_in(report):
    """Of each live thread by its address, what the state in a report says."""
    return {int(address): state for address, state in RUNNING.findall(report)}


class Drawn:
    """Calls that are drawn."""

    def __init__(self, draw, threads):
        self.draw, self.threads = draw, threads
        self.endpoints = [1 + THREADS + 1 + n for n in range(ENDPOINTS)]

    def slot(self):
        return self.draw.choice(SLOTS)

    def empty(self):
        """A slot that is likely to be empty."""
        return self.draw.choice([8, 9, 8, 9, 10, self.slot()])

    def full(self):
        """A slot that is likely to be full, with what is not the root CNode."""
        return self.draw.choice([*self.endpoints * 2, 2, 3, 4, 7, 8, self.slot()])

    def endpoint(self):
        return self.draw.choice([*self.endpoints * 4, 8, 9])

    def thread_slot(self):
        return self.draw.choice([2, 3, 4, 2, 3, 4, self.slot()])

    def word(self):
        return self.draw.choice([0, 1, 2, 5])

    def keys(self, op):
        slot, word = self.slot, self.word
        two = {"cap": 1, "index": self.empty(), "src_root": 1, "src_index": self.full()}
        return {
            "retype": lambda: {"cap": self.draw.choice([7, 7, slot()]), "kind": self.draw.choice([0, 1, 2, 2, 4]),
                               "size_bits": self.draw.choice([4, 4, 9]), "root": 1, "offset": self.empty(),
                               "count": self.draw.choice([1, 1, 2])},
            "copy": lambda: two | {"rights": self.draw.choice([15, 1, 2])},
            "mint": lambda: two | {"word": word()},
            "move": lambda: two,
            "mutate": lambda: two | {"word": word()},
            "delete": lambda: {"cap": 1, "index": self.full()},
            "revoke": lambda: {"cap": 1, "index": self.full()},
            "cancel_badged": lambda: {"cap": 1, "index": self.endpoint()},
            "send": lambda: {"cap": self.endpoint(), "label": word()},
            "nbsend": lambda: {"cap": self.endpoint(), "label": word(), "words": [word()]},
            "recv": lambda: {"cap": self.endpoint()},
            "nbrecv": lambda: {"cap": self.endpoint()},
            "set_space": lambda: {"cap": self.thread_slot(), "root": self.draw.choice([1, 1, slot()])},
            "suspend": lambda: {"cap": self.thread_slot()},
            "resume": lambda: {"cap": self.thread_slot()},
        }[op]()

    def call(self, client):
        thread = self.threads[client] if self.draw.random() < 0.9 else self.draw.choice(self.threads)
        op = self.draw.choices(OPERATIONS, WEIGHTS)[0]
        call = {"client": client, "thread": thread, "op": op, **self.keys(op)}
        if self.draw.random() < 0.6:
            call["expect"] = self.draw.choice(EXPECTATIONS)
        return call

    def calls(self):
        counts = [self.draw.choice([1, 2, 2, MOST_CALLS]) for _ in range(CLIENTS)]
        calls = [self.call(client) for client, count in enumerate(counts) for _ in range(count)]
        self.draw.shuffle(calls)
        return calls


def is_met(answer, expect):
    parts = ["waiting", answer.removeprefix("waiting then ")] if answer.startswith("waiting then ") else [answer]
    return any(part == expect or part.startswith(f"{expect} ") for part in parts)


def order_text(order):
    """How a report tells an order: by the numbers of its calls, or, if these are the first calls of the set-up in its own order, by the
    last one."""
    is_own = order == list(range(1, len(order) + 1))
    return f"in order to {len(order)}" if is_own else " ".join(["by", *map(str, order)])


class Orders:
    """All orders of a set-up's calls, made one by one."""

    def __init__(self, program, profile, calls):
        self.program, self.profile, self.calls = program, profile, calls
        self.own = [[n for n, call in enumerate(calls, 1) if call["client"] == client] for client in range(CLIENTS)]
        self.answers = {n: {} for n in range(1, len(calls) + 1)}
        self.stuck = {}
        self.ended = self.ended_stuck = 0
        self.states, self.ends = set(), set()
        self.make_all()

    def after(self, order):
        """The reply of an order's last call, and what the report tells of the state then."""
        calls = [{key: value for key, value in self.calls[n - 1].items() if key != "expect"} for n in order]
        _, report = run(self.program, "check", "-", text=text_of(self.profile, calls))
        lines = report.splitlines()
        reply = lines[len(order) - 1].split(": ", 1)[1] if order else ""
        return reply, "\n".join(lines[len(order):-1])

    def next_calls(self, order, threads):
        """The next call of each client that can make one, and those that are left."""
        left = [next((n for n in own if n not in order), None) for own in self.own]
        left = [n for n in left if n]
        return [n for n in left if threads.get(self.calls[n - 1]["thread"]) == "ready"], left

    def found(self, call, answer, order):
        self.answers[call].setdefault(answer, order)

    def made(self, order, waits):
        """An order behind its last call, whose answers are taken down: the order, the waits, and each live thread's state."""
        reply, state = self.after(order)
        threads = states_in(state)
        is_waiting = lambda thread: threads.get(thread, "").startswith(("sending", "receiving"))
        if order:
            call, thread = order[-1], self.calls[order[-1] - 1]["thread"]
            served = DELIVERED.match(f"{reply} ")
            if reply != "waiting":
                self.found(call, reply, order)
            for waiting, number in waits:
                if not is_waiting(waiting):
                    is_served = served and str(waiting) in served.groups()
                    self.found(number, f"waiting then {reply if is_served else 'cancelled'}", order)
            waits = [it for it in waits if is_waiting(it[0])] + ([(thread, call)] if reply == "waiting" else [])
        counts = tuple(sum(n in order for n in own) for own in self.own)
        return order, waits, threads, (counts, tuple(sorted(waits)), state)

    def longer(self, order, waits, threads, shown):
        """The orders with one call more."""
        self.states.add(shown)
        can, left = self.next_calls(order, threads)
        if not can:
            self.ends.add(shown)
            self.end(order, waits, left, threads)
        return [self.made(order + [n], waits) for n in can]

    def end(self, order, waits, left, threads):
        self.ended += 1
        for _, number in waits:
            self.found(number, "waiting", order)
        for own in self.own:
            for number in own:
                if number not in order:
                    self.found(number, "not made", order)
        if left:
            self.ended_stuck += 1
            self.stuck.setdefault(tuple(self.why(n, threads) for n in left), order)

    def why(self, number, threads):
        thread = self.calls[number - 1]["thread"]
        return f"  {number} {thread} {threads.get(thread, 'gone')}"

    def make_all(self):
        """Makes all orders, shorter ones first, and of equally many calls by the clients' numbers."""
        layer = [self.made([], [])]
        while layer:
            layer = [longer for it in layer for longer in self.longer(*it)]

    def mark(self, number):
        expect = self.calls[number - 1].get("expect")
        if expect is None:
            return ""
        met = [is_met(answer, expect) for answer in self.answers[number]]
        return " [met]" if all(met) else f" [met in some orders: {expect}]" if any(met) else f" [met in no order: {expect}]"

    def lines(self):
        """The report, but for its counts of states."""
        yield f"explore 2 {self.profile} clients {CLIENTS} calls {len(self.calls)}"
        for number, call in enumerate(self.calls, 1):
            yield f"{number} client {call['client']}: {call['thread']} {call['op']}{self.mark(number)}"
            for place, (answer, order) in enumerate(self.answers[number].items(), 1):
                is_missed = "expect" in call and not is_met(answer, call["expect"])
                yield f"  {number}.{place} {answer}" + (f" [not met] {order_text(order)}" if is_missed else "")
        for place, (lines, order) in enumerate(self.stuck.items(), 1):
            yield f"stuck.{place} {order_text(order)}"
            yield from lines
        yield f"orders {self.ended} stuck {self.ended_stuck}"
        expected = [n for n, call in enumerate(self.calls, 1) if "expect" in call]
        yield f"expected {sum(self.mark(n) == ' [met]' for n in expected)} of {len(expected)}"


def without_states(report):
    return [line.rstrip() for line in report.splitlines() if not line.startswith("states ")]


def faults(program, profile, calls):
    """What is wrong with the report of a set-up, and how many orders it has."""
    status, report = run(program, "explore", "-", text=text_of(profile, calls))
    orders = Orders(program, profile, calls)
    wanted, told = list(orders.lines()), without_states(report)
    wrong = [f"{one!r}, and not {other!r}" for one, other in zip(told, wanted) if one != other]
    if len(wanted) != len(told):
        wrong.append(f"{len(told)} lines, and not {len(wanted)}")
    counts = re.search(r"(?m)^states (\d+) ends (\d+)$", report)
    if not counts or not len(orders.states) <= int(counts[1]) or not len(orders.ends) <= int(counts[2]) <= orders.ended:
        wrong.append(f"{counts and counts[0]}, of at least {len(orders.states)} states and {len(orders.ends)} ends")
    is_missed = any("[not met]" in line for line in wanted) or orders.stuck
    if status != (1 if is_missed else 0):
        wrong.append(f"status {status}")
    return wrong, orders


def threads_of(program, profile):
    return sorted(states_in(run(program, "check", "-", text=text_of(profile, []))[1]))


def main():
    program, count, seed = os.path.abspath(sys.argv[1]), int(sys.argv[2]), int(sys.argv[3]) if len(sys.argv) > 3 else 1
    draw = random.Random(seed)
    threads = {profile: threads_of(program, profile) for profile in TOP}
    asked = [(profile, Drawn(draw, threads[profile]).calls()) for profile in [*TOP] * (count // 2)]
    done = side_by_side(lambda it: faults(program, *it), asked)
    wrong = 0
    for (profile, calls), (found, _) in zip(asked, done):
        if found:
            wrong += 1
            print(text_of(profile, calls) + "".join(f"# {line}\n" for line in found))
    told = {op for (_, calls), (_, orders) in zip(asked, done) for n, call in enumerate(calls, 1) for op in [call["op"]]
            if any(not answer.startswith("refused") for answer in orders.answers[n])}
    made = sum(orders.ended for _, orders in done)
    stuck = sum(bool(orders.stuck) for _, orders in done)
    print(f"orders one by one: {len(asked)} set-ups, {made} orders, {stuck} set-ups with a way to end stuck, {wrong} differ")
    missing = sorted(set(OPERATIONS) - told)
    if missing:
        print("never answered but by a refusal: " + ", ".join(missing))
    others = [list(orders.lines()) for _, orders in done]
    planted = sum(without_states(run(program, "explore", "-", text=text_of(*asked[at]))[1]) != others[at + 1] for at in (0, 1))
    return 0 if not wrong and not missing and planted == 2 else 1


if __name__ == "__main__":
    sys.exit(main())
