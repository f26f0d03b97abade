#!/usr/bin/env python3
"""explore.py PROGRAM FOLDER: the witness of each order that a report NAME.explore in FOLDER tells, but for those of `--ends`.

`--witness` writes the set-up with the calls of that order in that order, as data, and with the expectation of the call that the order is
told for alone. `check` of it gives that call the answer that the report tells.

Of one client with many calls there is one order, which is the set-up's own. So no line of its report lists the calls before it."""
import pathlib
import re
import sys
import tomllib

from answers import words_of
from program import document, run, side_by_side

# How a report tells an order: `by 1 3 2`, or `in order to 3` for the first three calls of the set-up in its own order.
ORDER = r"by(?: [0-9]+)+|in order to [0-9]+"


def set_up_with(document, order, expecting):
    """The set-up with these calls, by their numbers, and with the expectation of one alone."""
    calls = [dict(document["call"][number - 1]) for number in order]
    for number, call in zip(order, calls):
        if number != expecting:
            call.pop("expect", None)
    return document | {"format": 2, "call": calls}


def order_in(told):
    """The numbers of an order's calls."""
    first, *numbers = told.split()
    return [int(it) for it in numbers] if first == "by" else list(range(1, int(numbers[-1]) + 1))


def orders_told(text):
    """Each order that a report tells: the witness's name, its call or 0, the answer of that call, and the order."""
    for line in text.splitlines():
        if found := re.fullmatch(rf"  (([0-9]+)\.[0-9]+) (.*) \[not met\] ({ORDER})", line):
            yield found[1], int(found[2]), found[3], order_in(found[4])
        elif found := re.fullmatch(rf"(stuck\.[0-9]+) ({ORDER})", line):
            yield found[1], 0, "", order_in(found[2])


def answer_in(program, witness, place):
    """What `check` of a witness says of the call at a place, without its number and its mark."""
    line = run(program, "check", "-", text=witness)[1].splitlines()[place]
    return re.sub(r" \[(not )?met.*\]$", "", line.split(": ", 1)[1])


def is_answered(program, witness, call, answer, order):
    """Whether the calls of a witness come to the answer that the report tells for its call. A wait is told at the call itself,
    and what it comes to at the call that ends it."""
    if not call or answer == "not made" or answer.startswith("waiting"):
        return True
    return answer_in(program, witness, order.index(call)) == answer


def is_right(program, report, name, call, answer, order):
    """Whether a witness is the set-up with the order that the report tells for it."""
    command, *words, setup = words_of(report)
    document = tomllib.loads(report.with_name(setup).read_text())
    status, witness = run(program, command, "--witness", name, *words, report.with_name(setup))
    made = status == 0 and tomllib.loads(witness) == set_up_with(document, order, call)
    return made and is_answered(program, witness, call, answer, order)


def one_client(count):
    """A set-up of one client that receives so many times, where nobody sends, though each receive expects a message; and the report on it."""
    receive = {"thread": 2048, "op": "nbrecv", "cap": 4, "expect": "delivered"}
    set_up = document({"format": 2, "memory_bits": 16, "root_radix": 4, "threads": 2, "endpoints": 1, "call": [receive] * count})
    told = "".join(f"{n} client 0: 2048 nbrecv [met in no order: delivered]\n  {n}.1 empty [not met] in order to {n}\n"
                   for n in range(1, count + 1))
    # One state before each call, and one at the end.
    counts = f"states {count + 1} ends 1\norders 1 stuck 0\nexpected 0 of {count}\n"
    return set_up, f"explore 2 wide clients 1 calls {count}\n{told}{counts}"


def is_told_of_one_client(program, count):
    """Whether the report on one client with so many calls is as wanted, and its status."""
    set_up, wanted = one_client(count)
    is_as_wanted = run(program, "explore", "-", text=set_up) == (1, wanted)
    print(f"explore: one client with {count} calls, {'as wanted' if is_as_wanted else 'not as wanted'}")
    return is_as_wanted


def main():
    program, folder = sys.argv[1], pathlib.Path(sys.argv[2])
    reports = [it for it in sorted(folder.glob("*.explore")) if ".ends." not in it.name]
    asked = [(report, *told) for report in reports for told in orders_told(report.read_text())]
    right = side_by_side(lambda told: is_right(program, *told), asked)
    for report, name in (it[:2] for it, is_one in zip(asked, right) if not is_one):
        print(f"{report}: the witness {name} is wrong")
    print(f"explore: {len(asked)} witnesses, {right.count(False)} wrong")
    return 0 if asked and all(right) and is_told_of_one_client(program, 1000) else 1


if __name__ == "__main__":
    sys.exit(main())
