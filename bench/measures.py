"""What a run of a program costs: instructions (counted by valgrind), processor seconds, and the most memory."""

import contextlib
import os
import pathlib
import re
import resource
import signal
import subprocess
import tempfile
from typing import NamedTuple

TIME = "/usr/bin/time"

# A line of callgrind_annotate: a count, a share in brackets, and `FILE:FUNCTION [PROGRAM]`, where the function may end
# with the arguments or the hash of its instance, or with the number of a recursive call.
FUNCTION = re.compile(r"^\s*([\d,]+) .*?\)\s+\S*?:(\S+?)(?:::<\S+>)?(?:::h[0-9a-f]{16})?(?:'2)? \[", re.M)

# A time is the least of several runs, so that other work on the machine weighs little.
REPEATS = 5
MOST_REPEATS = 40
ENOUGH_SECONDS = 1.0


def instructions(command):
    """All instructions of a run."""
    ran = subprocess.run(
        ["valgrind", "--tool=cachegrind", "--cache-sim=no", "--cachegrind-out-file=/dev/null", *map(str, command)],
        check=True,
        capture_output=True,
        text=True,
    )
    return int(re.search(r"I\s+refs:\s+([\d,]+)", ran.stderr).group(1).replace(",", ""))


def counts_of_functions(command):
    """The instructions of each function of a run, with those of what it calls, and under `None` of the whole run."""
    with tempfile.TemporaryDirectory() as folder:
        out = pathlib.Path(folder) / "callgrind.out"
        quiet = {"check": True, "stdout": subprocess.DEVNULL, "stderr": subprocess.DEVNULL}
        subprocess.run(["valgrind", "--tool=callgrind", f"--callgrind-out-file={out}", *map(str, command)], **quiet)
        annotate = ["callgrind_annotate", "--inclusive=yes", "--threshold=100", out]
        text = subprocess.run(annotate, check=True, capture_output=True, text=True).stdout
    total = re.search(r"([\d,]+) \(100\.0%\)\s+PROGRAM TOTALS", text).group(1)
    counts = {None: int(total.replace(",", ""))}
    for count, name in FUNCTION.findall(text):
        counts.setdefault(name, int(count.replace(",", "")))
    return counts


def output(command):
    return subprocess.run(list(map(str, command)), check=True, capture_output=True).stdout


def waited(child):
    """The processor seconds of a child that ends, its own and the system's."""
    _, status, usage = os.wait4(child.pid, 0)
    child.returncode = os.waitstatus_to_exitcode(status)
    return usage.ru_utime + usage.ru_stime


def seconds(command):
    """The processor seconds of one run."""
    child = subprocess.Popen(list(map(str, command)), stdout=subprocess.DEVNULL)
    taken = waited(child)
    assert child.returncode == 0, f"{command} failed"
    return taken


def least_seconds(commands):
    """The least of several runs of each command, in turn, so that each has its share of the quiet times."""
    least = [float("inf")] * len(commands)
    spent = runs = 0
    while runs < REPEATS or (spent < ENOUGH_SECONDS and runs < MOST_REPEATS):
        times = [seconds(command) for command in commands]
        least = [min(old, new) for old, new in zip(least, times)]
        spent, runs = spent + sum(times), runs + 1
    return least


def peak_kib(command, statuses=(0,)):
    """The most memory that a run had resident, in KiB. Of a child of this script, the script's own would count too."""
    timed = [TIME, "-f", "%M", *map(str, command)]
    ran = subprocess.run(timed, stdout=subprocess.DEVNULL, stderr=subprocess.PIPE)
    assert ran.returncode in statuses, f"{command} failed"
    return int(ran.stderr.split()[-1])


# What a run may take where nobody knows how much it will be.
MOST_SECONDS = 10
MOST_BYTES = 1 << 30
OUT_OF_MEMORY = b"out of memory"

# The statuses of an answer: of a set-up, also that something is not as it was to be.
ANSWERED = (0, 1)


class Run(NamedTuple):
    """What a run took, and how many bytes it wrote; or the limit that ended it."""

    seconds: float
    written: int
    limit: str


def limited(command, out, most_seconds=MOST_SECONDS):
    """One run that writes to a file, with limits."""
    with open(out, "wb") as file, tempfile.TemporaryFile() as notes:
        child = subprocess.Popen(list(map(str, command)), stdout=file, stderr=notes)
        with contextlib.suppress(ProcessLookupError):
            resource.prlimit(child.pid, resource.RLIMIT_CPU, (most_seconds, most_seconds + 1))
            resource.prlimit(child.pid, resource.RLIMIT_AS, (MOST_BYTES, MOST_BYTES))
        taken = waited(child)
        notes.seek(0)
        said, written = notes.read(), file.tell()
    if child.returncode in (-signal.SIGXCPU, -signal.SIGKILL):
        return Run(taken, written, f"{most_seconds} s")
    if OUT_OF_MEMORY in said:
        return Run(taken, written, f"{MOST_BYTES >> 30} GB")
    assert child.returncode in ANSWERED, f"{command} ended with {child.returncode}: {said.decode()}"
    return Run(taken, written, "")


def least_run(command, out, most_seconds=MOST_SECONDS):
    """The least of three runs; one that takes long is made once."""
    run = limited(command, out, most_seconds)
    again = 0 if run.limit or run.seconds > ENOUGH_SECONDS else 2
    return min([run, *(limited(command, out, most_seconds) for _ in range(again))])
