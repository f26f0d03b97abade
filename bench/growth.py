"""growth.py PROGRAM PLAIN [PART..]: measures how cost grows with the work, of the proved PROGRAM beside the same in
plain Rust (PLAIN, the built program of bench/check_plain), and writes docs/performance.csv. The parts:

- `cycles`, `shared`: the kernel's steps and revocations, and kernels that clients share;
- `check`: `check` of the set-ups of set_ups.py, at four sizes each. Both programs have to write the same report, byte
  for byte. Also `audit` beside the report;
- `commands`: all commands on set-ups that grow in one direction each, by themselves;
- `explorations`, `spin`: `explore`, by itself and beside SPIN.

Where parts are named, they alone are measured, and nothing is written."""

import pathlib
import sys
import tempfile
import time

import commands
import cycles
import explorations
import figures
import set_ups
import shared
from measures import counts_of_functions, instructions, least_seconds, output, peak_kib
from spin import beside

# The functions whose instructions, with those of what they call, are a part of a run.
WHOLE = "program::work::WorkEngine::make"
SETUP, CALLS, BOOT = (f"command_check::run::{name}" for name in ("run_setup", "run_calls", "boot"))
READ = "setup_format::reading::read"
REVOKES = "command_audit::revokes::add_revokes"

# The subjects whose set-ups are audited too.
AUDITED = ["memories"]

PLAIN_PARTS = {
    "reading": "setup::read_setup",
    "booting": "boot",
    "running": "run_calls",
    "reporting": "report::write_report",
}


def proved_parts(command):
    counts = counts_of_functions(command)
    made, setup, calls, boot = (counts[name] for name in (WHOLE, SETUP, CALLS, BOOT))
    parts = {"reading": made - setup, "booting": boot, "running": calls - boot, "reporting": setup - calls}
    return {"instructions": counts[None], **parts}


def plain_parts(command):
    counts = counts_of_functions(command)
    parts = {part: counts[f"check_plain::{name}"] for part, name in PLAIN_PARTS.items()}
    return {"instructions": counts[None], **parts}


def text_parts(counts, calls):
    """The parts of a run of another command, where `calls` has those of `check` for the same set-up: the calls are the
    same. Reporting is all that is left."""
    parts = {"reading": counts[READ], "booting": calls["booting"], "running": calls["running"]}
    return {"instructions": counts[None], **parts, "reporting": counts[WHOLE] - sum(parts.values())}


def audit_rows(proved, path, size):
    """An audit of a memory, where reporting is what threads name and who can send to whom; what it tells of revokes alone;
    and what threads can never get there."""
    calls = proved_parts([proved, "check", path])
    counts = counts_of_functions([proved, "audit", path])
    parts, revoking = text_parts(counts, calls), counts[REVOKES]
    parts["reporting"] -= revoking
    yield {"subject": "audits", "size": size, "program": "proved", **parts}
    yield {"subject": "audits, revokes", "size": size, "program": "proved", "reporting": revoking}
    ever = text_parts(counts_of_functions([proved, "ever", path]), calls)
    yield {"subject": "audits, ever", "size": size, "program": "proved", **ever}


def whole(command):
    return {"instructions": instructions(command)}


def counters(subject):
    # To tell the parts apart takes some three times as long, and the parts are the same however the calls are spelt.
    return (whole, whole) if subject.endswith("headers") else (proved_parts, plain_parts)


def check_rows(proved, plain, path, subject, size):
    runs = [[program, "check", path] for program in (proved, plain)]
    reports = [output(command) for command in runs]
    assert reports[0] == reports[1], f"{subject}, {size}: the reports differ"
    times = least_seconds(runs)
    for name, command, count, seconds in zip(("proved", "plain Rust"), runs, counters(subject), times):
        costs = {"seconds": f"{seconds:.6f}", "peak_kib": peak_kib(command)}
        yield {"subject": subject, "size": size, "program": name, **count(command), **costs}


def growth_rows(proved, plain):
    with tempfile.TemporaryDirectory() as folder:
        path = pathlib.Path(folder) / "setup.toml"
        for subject, (sizes, text_of) in set_ups.SUBJECTS.items():
            for size in sizes:
                path.write_text(text_of(size))
                yield from check_rows(proved, plain, path, subject, size)
                if subject in AUDITED:
                    yield from audit_rows(proved, path, size)


def told(part, rows):
    """The rows of a part, each printed when it is there, and how long the part took."""
    begun = time.monotonic()
    for row in rows:
        print("; ".join(f"{key} {value}" for key, value in row.items()), flush=True)
        yield row
    print(f"{part}: {time.monotonic() - begun:.0f} seconds", flush=True)


def parts(proved, plain):
    """The parts, first those that may find something wrong."""
    return {
        "spin": beside.rows(proved),
        "explorations": explorations.rows(proved),
        "commands": commands.rows(proved),
        "cycles": cycles.rows(),
        "shared": shared.rows(),
        "check": growth_rows(proved, plain),
    }


def main():
    proved, plain, *only = sys.argv[1:]
    there = parts(proved, plain)
    if not set(only) <= set(there):
        sys.exit(f"the parts are {', '.join(there)}")
    rows = [row for part in only or there for row in told(part, there[part])]
    if not only:
        figures.write(rows)


main()
