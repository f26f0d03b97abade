"""Costs of kernels that clients share, of the proved program crates/bench_shared and of the same in plain Rust: a call
that a book takes, a client's call, and looks of clients that look all the time while another one calls."""

import pathlib
import statistics
import subprocess
import time

from measures import instructions

HERE = pathlib.Path(__file__).parent
CRATE = HERE.parent / "crates" / "bench_shared"

PROGRAMS = {
    "proved": CRATE / "out" / "bench_shared",
    "plain Rust": HERE / "shared_cycle" / "out" / "target" / "release" / "shared_cycle",
}

# What the subjects are called, and what their sizes are: entries of a history, and clients that look.
JOBS = {"take": "call that a book takes", "call": "call of a client"}
SIZES = {
    "call that a book takes": "entries",
    "call of a client": "entries",
    "look": "clients that look",
    "call beside looks": "clients that look",
}
ENTRIES = [1000, 4000, 16000, 65536]
READERS = [1, 2, 4, 8]

REPEATS = 25
LOOK_REPEATS = 5
MOST_RUNS = 20
LOOK_SECONDS = 2.0


def build():
    command = ["python3", "tools/prove.py", CRATE.name]
    subprocess.run(command, cwd=HERE.parent, check=True, stdout=subprocess.DEVNULL, stderr=subprocess.DEVNULL)
    command = ["env", "CARGO_TARGET_DIR=out/target", "cargo", "build", "--release", "--quiet"]
    subprocess.run(command, cwd=HERE / "shared_cycle", check=True)


def timed(program, *words):
    """The seconds of a run, and the number that it prints."""
    start = time.perf_counter()
    done = subprocess.run([program, *map(str, words)], check=True, capture_output=True, text=True)
    return time.perf_counter() - start, int(done.stdout)


def row(subject, size, program, seconds):
    return {"subject": subject, "size": size, "program": program, "seconds": f"{seconds:.3e}"}


def costs_of_call(program, job, entries):
    """What a call costs: a history that it fills with so many, less one of a single call."""
    first, whole = ([program, job, "1", str(most)] for most in (1, entries))
    counted = instructions(whole) - instructions(first)
    times = [timed(*whole)[0] - timed(*first)[0] for _ in range(REPEATS)]
    return counted / (entries - 1), statistics.median(times) / (entries - 1)


def call_rows():
    for job, subject in JOBS.items():
        for entries in ENTRIES:
            for name, program in PROGRAMS.items():
                counted, seconds = costs_of_call(program, job, entries)
                yield {**row(subject, entries, name, seconds), "running": f"{counted:.1f}"}


def calls_for(program, readers):
    """So many calls that a run takes some seconds while so many clients look."""
    calls = 16
    while calls < ENTRIES[-1] and timed(program, "look", calls, readers)[0] < LOOK_SECONDS / 4:
        calls *= 4
    return calls


def looked(program, calls, readers):
    """A run in which a client looks. Where all calls are made before one does, there is another run."""
    runs = (timed(program, "look", calls, readers) for _ in range(MOST_RUNS))
    return next(run for run in runs if run[1])


def look_rows():
    """The time of a look, of all clients together, and of the calls that are made meanwhile: the least of each."""
    for readers in READERS:
        for name, program in PROGRAMS.items():
            calls = calls_for(program, readers)
            runs = [looked(program, calls, readers) for _ in range(LOOK_REPEATS)]
            yield row("look", readers, name, min(seconds / looks for seconds, looks in runs))
            yield row("call beside looks", readers, name, min(runs)[0] / calls)


def rows():
    build()
    yield from call_rows()
    yield from look_rows()
