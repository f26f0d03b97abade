"""`sel4sim explore` beside SPIN, on the same questions: it has to find as many states. Where SPIN or a C compiler is
not installed, nothing is measured."""

import pathlib
import re
import shutil
import tempfile

from explorations import MOST_SECONDS, costs_of
from measures import least_run, peak_kib, seconds
from spin.questions import STEPS, Question

HERE = pathlib.Path(__file__).parent
ANSWERS = HERE.parent.parent / "tests" / "answers" / "explorations"

# What the subject of a question begins with.
SUBJECT = "beside SPIN, "

# Of the questions of each kind, how many clients make how many calls each.
ASKED = {"messages": [(3, 4), (3, 10), (3, 20), (4, 10), (5, 8)], "turns": [(3, 8), (3, 20)], "apart": [(5, 8)]}

# The models that are written by hand, with how many calls of their set-ups come before the clients begin: a model
# begins behind them, and they are a state and a step each.
BY_HAND = {"sends_to_each_other": 0, "revoke_against_send": 2, "two_locks": 0}

# More than any of them has.
ALL_STATES = 10_000_000

# How a verifier is made, by words of spin and of the compiler. SPIN keeps what `explore` keeps where it does without
# its reduction by partial orders, and does not drop variables that are only written.
WAYS = {
    "SPIN": (["-o2"], ["-DNOREDUCE"]),
    "SPIN, reduced": (["-o2"], []),
    "SPIN as it comes": ([], []),
}
MAKING = "making of SPIN's verifier"

# No state is an error; there is room for 2^20 states in the table, and for so many steps on the way.
SEARCH = ["-E", "-c0", "-w20", "-m10000"]
TOO_DEEP = "max search depth too small"
FOUND = {"states": re.compile(r"(\d+) states, stored"), "steps": re.compile(r"(\d+) transitions")}


def questions():
    """The name of each question, its set-up, its model, and how many first calls it has."""
    for question in (Question(kind, *counts) for kind, asked in ASKED.items() for counts in asked):
        yield question.name, question.set_up(), question.model(), 0
    for name, first in BY_HAND.items():
        yield name, (ANSWERS / f"{name}.toml").read_text(), (HERE / f"{name}.pml").read_text(), first


def verified(folder, way):
    """What the search of a model takes and finds, and what it took to make the verifier."""
    spin, compiler = WAYS[way]
    made = seconds(["env", "-C", folder, "spin", *spin, "-a", "model.pml"])
    made += seconds(["env", "-C", folder, "gcc", "-O2", "-w", "-DSAFETY", *compiler, "-o", "pan", "pan.c"])
    command, out = [folder / "pan", *SEARCH], folder / "pan.out"
    run, text = least_run(command, out, MOST_SECONDS), out.read_text()
    assert not run.limit and TOO_DEEP not in text, f"the search is not whole:\n{text}"
    found = {key: int(pattern.search(text).group(1)) for key, pattern in FOUND.items()}
    return made, {"seconds": f"{run.seconds:.6f}", "peak_kib": peak_kib(command), **found}


def rows_of(program, folder, name, first):
    """A question here and there. SPIN counts its beginning as a step."""
    own = costs_of(program, folder / "setup.toml", ALL_STATES, "--first", first)
    assert "limit" not in own, f"{name}: explore takes more than {own['limit']}"
    found = {way: verified(folder, way) for way in WAYS}
    made, other = found["SPIN"]
    steps = other["steps"] - 1 + first
    assert own["states"] == other["states"] + first, f"{name}: {own['states']} states, and {other['states']} of SPIN"
    assert steps == STEPS.get(name, steps), f"{name}: {steps} steps"
    common = {"subject": SUBJECT + name, "size": own["states"]}
    yield {**common, "program": "proved", **own, "steps": steps}
    yield {**common, "program": MAKING, "seconds": f"{made:.6f}"}
    for way, (_, costs) in found.items():
        yield {**common, "program": way, **costs}


def rows(program):
    missing = [command for command in ("spin", "gcc") if shutil.which(command) is None]
    if missing:
        print(f"explore is not measured beside SPIN: there is no {' and no '.join(missing)}", flush=True)
        return
    with tempfile.TemporaryDirectory() as name:
        folder = pathlib.Path(name)
        shutil.copy(HERE / "endpoints.pml", folder)
        for question, set_up, model, first in questions():
            (folder / "setup.toml").write_text(set_up)
            (folder / "model.pml").write_text(model)
            yield from rows_of(program, folder, question, first)
