#!/usr/bin/env python3
"""gate.py: runs the gate, `rt ci`, and says before its last line how many processor seconds it took.

As many crates are proved side by side as there are processors, or as memory allows, and each by one process: `rt` is told so by
RT_JOBS, where nobody has set it. By itself it lets a crate that nothing else waits beside be proved by several processes, which
take more processor seconds together; and it begins fewer crates than there are processors, since it expects up to twice the memory
that a proof takes.

A gate that passed is noted in out/gate, with a sum of all files that it read: while they stay the same, `make test` takes the
program that it built, and runs none of the tests that it ran."""
import contextlib
import hashlib
import os
import resource
import shutil
import subprocess
import sys
import time

from crates import TOP, toolchain
from prove import BYTES_A_JOB, NAME, free_memory, tell

NOTED = os.path.join(TOP, "out", "gate")
PROGRAM = os.path.join(TOP, "crates", NAME, "out", NAME)


def files_read():
    """Yields the files that the gate reads: all of the crates but what is made in their folders out/."""
    yield from (os.path.join(TOP, it) for it in ("crates.txt", "HANDLES"))
    for at, folders, names in os.walk(os.path.join(TOP, "crates")):
        folders[:] = sorted(it for it in folders if it not in ("out", "__pycache__"))
        yield from (os.path.join(at, it) for it in sorted(names))


def sum_of_files():
    """Returns a sum of the toolchain and of what the gate reads."""
    total = hashlib.sha256(toolchain())
    for path in files_read():
        with contextlib.suppress(FileNotFoundError), open(path, "rb") as file:
            total.update(repr((os.path.relpath(path, TOP), file.read())).encode())
    return total.hexdigest()


def sum_of_program():
    with contextlib.suppress(FileNotFoundError), open(PROGRAM, "rb") as file:
        return hashlib.sha256(file.read()).hexdigest()
    return "none"


def note(read):
    """Notes that the gate passed for the files with this sum, unless one was changed while it ran."""
    if sum_of_files() == read:
        os.makedirs(os.path.dirname(NOTED), exist_ok=True)
        with open(NOTED, "w", encoding="utf-8") as file:
            file.write(f"{read} {sum_of_program()}")


def noted():
    with contextlib.suppress(FileNotFoundError), open(NOTED, encoding="utf-8") as file:
        return file.read().split()
    return []


def has_passed():
    """Returns whether the gate passed for the very files that are there."""
    return noted()[:1] == [sum_of_files()]


def has_built():
    """Returns whether the program that is there is the one that the gate built of the very files that are there."""
    return noted() == [sum_of_files(), sum_of_program()]


def library(name):
    """Returns where the gate leaves a library, for the crates above it."""
    return os.path.join(TOP, "crates", name, "out", "rlib", f"{name}.rlib")


def has_libraries(names):
    """Returns whether these libraries are there as the gate built them. Where `rt check` left some before, `rt ci` puts those
    back, which have a stamp."""
    return has_passed() and all(
        os.path.isfile(os.path.join(library(it), "format")) and not os.path.exists(os.path.join(os.path.dirname(library(it)), "stamp"))
        for it in names)


def main():
    if not shutil.which("rt"):
        tell("there is no command rt on the path: it needs the Rattle toolchain")
        return 2
    with contextlib.suppress(FileNotFoundError):
        os.remove(NOTED)
    began, last, read = time.monotonic(), b"", sum_of_files()
    places = len(os.sched_getaffinity(0))
    jobs = max(1, min(places, free_memory() // BYTES_A_JOB))
    given = {"RT_JOBS": str(jobs), **os.environ}
    with subprocess.Popen(["rt", "ci", *sys.argv[1:]], stdout=subprocess.PIPE, env=given) as gate:
        for line in gate.stdout:
            sys.stdout.buffer.write(last)
            sys.stdout.buffer.flush()
            last = line
    used, passed = resource.getrusage(resource.RUSAGE_CHILDREN), time.monotonic() - began
    if gate.returncode == 0 and not sys.argv[1:]:
        note(read)
    print(f"gate: {used.ru_utime + used.ru_stime:.0f} processor seconds, {passed:.0f} s on {places} processors", flush=True)
    sys.stdout.buffer.write(last)
    sys.stdout.buffer.flush()
    return gate.returncode


if __name__ == "__main__":
    sys.exit(main())
