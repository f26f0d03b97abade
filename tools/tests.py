#!/usr/bin/env python3
"""tests.py: runs every test by programs that are compiled without their proofs, as many side by side as there are processors
and as memory allows.

These are the `#[test]`s of each crate that has some; each program that has a file `stdout` beside src/, on what lies there;
and the lines of `make rows-python`. A program compiled so takes some eighty times as long as the proved one, so some rows
leave cases out, and say which: these are listed at the end. The last line is 'N passed, N failed'.

Nothing is compiled anew that is there of these very files. Where `make prove` or the gate built the program, the rows are
run by it, with all their cases; where the gate passed, which runs the tests of the crates and their programs, those are not run
again. Nothing is proved here."""
import concurrent.futures
import os
import shutil
import subprocess
import sys
import tempfile
import threading
import time

import gate
import prove
import running
from crates import TOP, listed
from prove import BYTES_A_JOB, costs, free_memory, status_of
from unproved import NAME, NOT_PROVED, kept_program, root_of, tell

# The program of how calls of the libraries end, which a row runs too.
CALLS = "test_calls"
# The seconds that one test has.
LIMIT = 900
NOT_TRIED = "not tried: "
# So many set-ups have all their orders made one by one, each by a run of the program.
FEW_ORDERS = "16"
# So many set-ups and policies are drawn at random by a row.
FEW_DRAWN = "60"
# Of so many a draft is asked for, and cut.
FEW_DRAFTED = "12"
# The rows that take longest begin first.
LONG = ("orders_one_by_one", "hostile_texts", "commands.py", "drafts", "random_policies", "random_takes", "imports.py",
        "random_places", "random_lists")


def ran(words, **how):
    return running.ran(words, LIMIT, **how)


def read(path, otherwise=b""):
    if not os.path.isfile(path):
        return otherwise
    with open(path, "rb") as file:
        return file.read()


def has_tests(name):
    folder = os.path.join(TOP, "crates", name, "src")
    files = [os.path.join(at, it) for at, _, names in os.walk(folder) for it in names]
    return root_of(name).endswith("lib.rt") and any(b"#[test]" in read(it) for it in files)


def is_program(name):
    return root_of(name).endswith("main.rt") and os.path.isfile(os.path.join(TOP, "crates", name, "stdout"))


def tests_of(name, program):
    """Runs each test of a library. Yields its name, whether it passed, and what it wrote."""
    status, said = ran([program, "--list"])
    names = [line.removesuffix(": test") for line in said.decode().splitlines() if line.endswith(": test")]
    yield f"{name} lists its tests", status == 0 and names != [], said
    for test in names:
        status, said = ran([program, test])
        yield f"{name} {test}", status == 0, said


def run_of(name, program):
    """Runs a program as the gate does, on the files beside src/."""
    folder = os.path.join(TOP, "crates", name)
    with tempfile.TemporaryDirectory(prefix=f"{name}-run-") as room, open(os.devnull, "rb") as nothing:
        if os.path.isdir(f"{folder}/data"):
            shutil.copytree(f"{folder}/data", room, dirs_exist_ok=True)
        given = open(f"{folder}/stdin", "rb") if os.path.isfile(f"{folder}/stdin") else nothing
        with given:
            words = [program, *read(f"{folder}/args").decode().splitlines()]
            status, said = ran(words, cwd=room, stdin=given, stderr=subprocess.DEVNULL)
    wanted = int(read(f"{folder}/status", b"0"))
    right = said == read(f"{folder}/stdout") and status == wanted
    yield f"{name}", right, b"" if right else b"status %d, wanted %d; it wrote\n%s" % (status, wanted, said[-3000:])


def of_crate(name):
    """Compiles a crate's tests, or the program, and runs them."""
    program = kept_program(name)
    if not program:
        yield f"{name} compiles", False, b""
    else:
        yield from (run_of if is_program(name) else tests_of)(name, program)


def rows(*words):
    """Returns the lines of `make rows-python`, those that take longest first."""
    words = ["make", "--no-print-directory", "-n", "rows-python", *words]
    lines = subprocess.run(words, cwd=TOP, stdout=subprocess.PIPE, check=True, text=True).stdout.splitlines()
    return sorted(lines, key=lambda line: next((at for at, it in enumerate(LONG) if it in line), len(LONG)))


def of_row(line, **given):
    status, said = ran(["sh", "-c", line], cwd=TOP, env={**os.environ, **given})
    yield line, status == 0, said


class Results:
    """What passed and what failed, and where the tests are done side by side."""

    def __init__(self, places):
        self.pool, self.lock = concurrent.futures.ThreadPoolExecutor(places), threading.Lock()
        self.passed, self.failed, self.not_tried = 0, [], []

    def take(self, work, it, **words):
        """Does what gives some results, and notes them."""
        begun = time.time()
        try:
            found = list(work(it, **words))
        except (OSError, ValueError, subprocess.SubprocessError) as fault:
            found = [(it, False, str(fault).encode())]
        passed = sum(right for _, right, _ in found)
        with self.lock:
            self.passed += passed
            for name, right, said in found:
                lines = said.decode(errors="replace").splitlines()
                self.not_tried += [line.removeprefix(NOT_TRIED) for line in lines if line.startswith(NOT_TRIED)]
                if not right:
                    self.failed.append(name)
                    print("\n".join([f"FAILED: {name}", *lines]))
            print(f"{it}: {passed} of {len(found)} passed, {time.time() - begun:.0f} s", flush=True)

    def add(self, work, given, **words):
        return [self.pool.submit(self.take, work, it, **words) for it in given]

    def tell(self):
        """Tells what was left out and what failed, and returns the status."""
        for it in sorted(self.not_tried):
            print(f"{NOT_TRIED}{it}")
        for it in self.failed:
            print(f"failed: {it}")
        print(f"{self.passed} passed, {len(self.failed)} failed")
        return 1 if self.failed else 0


def add_crates(results):
    """Adds the tests of the crates, the dearest first, and returns what waits for them."""
    known = costs()
    crates = [it for it in listed() if it != NAME and (has_tests(it) or is_program(it))]
    return results.add(of_crate, [*sorted(crates, key=lambda it: -known.get(it, 0)), NAME])


def of_unproved(results):
    """Compiles the programs, and adds the rows."""
    tell(f"not proved: {NOT_PROVED}")
    # The rows wait for these two, so they are compiled first.
    first = [results.pool.submit(kept_program, it) for it in (NAME, CALLS)]
    work = add_crates(results)
    program, calls = (it.result() for it in first)
    if program and calls:
        results.not_tried += [f"all orders, made one by one, of more than {FEW_ORDERS} set-ups",
                              f"random policies, takes, places and lists of more than {FEW_DRAWN} set-ups each",
                              f"drafts of more than {FEW_DRAFTED} random set-ups"]
        few = {"program": os.path.relpath(program, TOP), "calls": os.path.relpath(calls, TOP), "orders": FEW_ORDERS, "drawn": FEW_DRAWN, "drafted": FEW_DRAFTED}
        lines = rows(*(f"{name}={value}" for name, value in few.items()))
        work += results.add(of_row, lines, SEL4SIM_UNPROVED="1")
    return work


def of_proved(results):
    """Adds the rows, by the proved program, and the tests of the crates where the gate did not run them."""
    has_run = gate.has_passed()
    tell(f"the rows are run by the proved program{'; what the gate ran of these very files is not run again' if has_run else ''}")
    if has_run:
        return results.add(of_row, rows())
    compiled = results.pool.submit(kept_program, CALLS)
    work, calls = add_crates(results), compiled.result()
    return work + results.add(of_row, rows(f"calls={os.path.relpath(calls, TOP)}") if calls else [])


def main():
    if not shutil.which("rt"):
        tell("there is no command rt on the path: it needs the Rattle toolchain")
        return 2
    results = Results(max(1, min(len(os.sched_getaffinity(0)), free_memory() // BYTES_A_JOB)))
    try:
        for it in (of_proved if gate.has_built() or prove.is_built() else of_unproved)(results):
            it.result()
        return results.tell()
    finally:
        results.pool.shutdown(wait=False, cancel_futures=True)
        running.end_all()


if __name__ == "__main__":
    sys.exit(status_of(main, "stopped"))
