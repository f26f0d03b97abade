"""What `sel4sim explore` costs. There is nothing beside it in plain Rust."""

import pathlib
import re
import tempfile

import set_ups
from measures import ANSWERED, least_run, least_seconds, output, peak_kib
from spin.questions import STEPS, Question

# By how many steps lead from a state to one, of the mixed clients of set_ups.py; by the bytes of the memory; by how
# many states are kept; and by how many clients share nothing.
SUBJECT, MEMORIES, KEPT, APART = "explorations", "explorations, memories", "explorations, states", "explorations, apart"

STATES = re.compile(rb"^(?:clients [\d ]+ )?states (\d+)", re.M)

# What is explored in memories of these bits.
ASKED = Question("messages", 3, 20)
MEMORY_BITS = [14, 16, 18, 20]

# What has more states than anyone waits for, and how many of them are kept.
ENDLESS = Question("turns", 4, 10)
LIMITS = [50_000, 100_000, 200_000, 400_000]
MOST_SECONDS = 60

# Clients that share nothing: how many there are, and how many calls each makes. `ENDS` is a program of these figures.
APART_CLIENTS = [2, 3, 4, 5]
APART_CALLS = 8
ENDS = "proved, --ends"


def counted(text):
    """How many states an exploration has, or kept, of all groups of clients."""
    return sum(map(int, STATES.findall(text)))


def states(program, path, counts):
    path.write_text(set_ups.mixed_clients(counts))
    return counted(output([program, "explore", path]))


def steps(program, path, calls):
    """How many steps lead from a state to one. No thread waits, so each client that has a call left can make it: those
    of a client are as many as there are states without its last call."""
    clients = range(set_ups.CLIENTS)
    return sum(states(program, path, [calls - (other == client) for other in clients]) for client in clients)


def mixed_rows(program, path):
    for calls in set_ups.EXPLORED:
        size = steps(program, path, calls)
        path.write_text(set_ups.mixed_clients([calls] * set_ups.CLIENTS))
        command = [program, "explore", path]
        (time,) = least_seconds([command])
        costs = {"seconds": f"{time:.6f}", "peak_kib": peak_kib(command)}
        yield {"subject": SUBJECT, "size": size, "program": "proved", **costs}


def costs_of(program, path, limit, *words):
    """What an exploration takes that keeps at most so many states."""
    command, out = [program, "explore", *words, "--states", limit, path], path.with_suffix(".out")
    run = least_run(command, out, MOST_SECONDS)
    if run.limit:
        return {"limit": run.limit}
    costs = {"seconds": f"{run.seconds:.6f}", "peak_kib": peak_kib(command, ANSWERED)}
    return {**costs, "states": counted(out.read_bytes())}


def memory_rows(program, path):
    for bits in MEMORY_BITS:
        path.write_text(ASKED.set_up(bits))
        costs = {**costs_of(program, path, LIMITS[-1]), "steps": STEPS[ASKED.name]}
        yield {"subject": MEMORIES, "size": 1 << bits, "program": "proved", **costs}


def kept_rows(program, path):
    path.write_text(ENDLESS.set_up())
    for limit in LIMITS:
        yield {"subject": KEPT, "size": limit, "program": "proved", **costs_of(program, path, limit)}


def apart_rows(program, path):
    for clients in APART_CLIENTS:
        path.write_text(Question("apart", clients, APART_CALLS).set_up())
        for name, words in (("proved", []), (ENDS, ["--ends"])):
            yield {"subject": APART, "size": clients, "program": name, **costs_of(program, path, LIMITS[-1], *words)}


def rows(program):
    with tempfile.TemporaryDirectory() as folder:
        path = pathlib.Path(folder) / "setup.toml"
        for of in (mixed_rows, memory_rows, kept_rows, apart_rows):
            yield from of(program, path)
