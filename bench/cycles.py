"""Costs of the linked forms and the kernel, called without a set-up: what the programs of bench/ measure of themselves,
and how many instructions steps and revocations take."""

import pathlib
import re
import subprocess

from measures import instructions, least_seconds, peak_kib

HERE = pathlib.Path(__file__).parent

PROGRAMS = {"proved": "proved", "plain": "plain Rust", "plain_inlined": "plain Rust with hints"}

# What the programs call these in what they print.
TOLD = {"proved": "proved", "plain Rust": "plain Rust", "plain Rust with the same hints": "plain Rust with hints"}

# Each round of the kernel cycle makes so many steps, with all fifteen operations.
STEPS = 20
ROUNDS = [50, 500, 5000, 50000]
REPLIES = {"dropped": "", "kept": "_kept"}

ALL_SLOTS = 16384
SLOTS = [16, 256, 4096, 16384]
FORESTS = ["wide", "deep"]

UNITS = {"ns": 1e-9, "µs": 1e-6}


def program(name):
    return HERE / name / "out" / "target" / "release" / name


def printed(name):
    """Builds a program of bench/ and gives what it prints."""
    return subprocess.run([HERE / "run.sh", name], check=True, stdout=subprocess.PIPE, text=True).stdout


def printed_times(text):
    """The subject, the program and the seconds of each figure in lines `SUBJECT: proved 1.0 ns, plain Rust 1.0, ..`."""
    for line in text.splitlines():
        subject, times = line.split(": ", 1)
        unit = next(unit for unit in UNITS if f" {unit}" in times)
        for told, program in TOLD.items():
            found = re.search(rf"(?:^|[,;] ){told} ([\d.]+)", times)
            if found:
                yield subject, program, float(found.group(1)) * UNITS[unit]


def printed_rows(text):
    for subject, program, seconds in printed_times(text):
        yield {"subject": subject, "size": 1, "program": program, "seconds": f"{seconds:.3e}"}


def step_rows():
    for replies, suffix in REPLIES.items():
        boots = {name: instructions([program("kernel_cycle"), name + suffix, 0]) for name in PROGRAMS}
        for rounds in ROUNDS:
            commands = {name: [program("kernel_cycle"), name + suffix, rounds] for name in PROGRAMS}
            times = dict(zip(commands, least_seconds(list(commands.values()))))
            for name, command in commands.items():
                whole = instructions(command)
                yield {
                    "subject": f"steps, replies {replies}",
                    "size": rounds * STEPS,
                    "program": PROGRAMS[name],
                    "instructions": whole,
                    "booting": boots[name],
                    "running": whole - boots[name],
                    "seconds": f"{times[name]:.6f}",
                    "peak_kib": peak_kib(command),
                }


def revoke_row(forest, slots, name, times):
    """What revocations alone cost that clear all slots, so many each: the instructions are the difference of two runs,
    one of which only fills the slots."""
    command = [program("revoke_cycle"), name, slots, forest]
    told = PROGRAMS[name]
    return {
        "subject": f"revocations, {forest}",
        "size": slots,
        "program": told,
        "running": instructions([*command, "revoking"]) - instructions([*command, "filling"]),
        "seconds": f"{times[f'revoke, {forest}, {slots} slots', told] * ALL_SLOTS:.3e}",
    }


def revoke_rows(text):
    times = {(subject, told): seconds for subject, told, seconds in printed_times(text)}
    for forest in FORESTS:
        for slots in SLOTS:
            for name in PROGRAMS:
                yield revoke_row(forest, slots, name, times)


def rows():
    yield from printed_rows(printed("store_cycle"))
    yield from printed_rows(printed("ping_pong"))
    yield from printed_rows(printed("kernel_cycle"))
    yield from step_rows()
    yield from revoke_rows(printed("revoke_cycle"))
