#!/usr/bin/env python3
"""set_ups.py PROGRAM FOLDER: which set-ups are accepted, and what is read of them.

The tables of FOLDER/refusals.toml, names.toml and profiles.toml have set-ups that differ in a few lines. Each is accepted, or refused
with the line that is wanted, by `check`, `trace` and `migrate` alike; of an accepted one the trace tells the profile, where that is
wanted. Those of operations.toml have one call, whose operation and arguments the trace has to tell. Those of migrations.toml are
migrated: there are so many names, among them those that are wanted, and the keys of calls say what is wanted of them."""
import pathlib
import re
import sys
import tomllib

from program import run, tried

FIRST_FORMAT = re.compile(r"^format = 1$", re.M)


def faults_of_text(program, text, wanted):
    """What is wrong with what is told of a set-up that is accepted, or refused with this code at this place."""
    told = {command: run(program, command, text=text) for command in ("check", "trace", *["migrate"] * bool(FIRST_FORMAT.search(text)))}
    if not wanted[0].isdigit():
        status, trace = told.pop("trace")
        if not trace.startswith(f"trace 2 {wanted if wanted != 'accepted' else ''}"):
            yield f"accepted, {wanted}, is wanted of the trace: {trace[:100]!r}"
        if not re.search(r"^expected \d+ of \d+\n\Z", told["check"][1], re.M) or {status, told["check"][0]} - {0, 1}:
            yield f"a report is wanted: {told['check']}"
        if told.get("migrate", (0,))[0]:
            yield f"a migration is wanted: {told['migrate']}"
        return
    yield from (f"{command}: {it}" for command, it in told.items() if it != (2, f"set-up refused {wanted}\n"))


def faults_of_operation(program, text, wanted):
    """What is wrong with what the one call of a set-up is read as."""
    _, trace = run(program, "trace", text=text)
    found = re.search(r"^1 \d+ (\w+): .*\n  with (.*)$", trace, re.M)
    if not found or " ".join(found.groups()) != wanted:
        yield f"{wanted} is wanted of {trace[-400:]!r}"


def faults_of_migration(program, setup):
    """What is wrong with what a set-up is migrated to."""
    status, text = run(program, "migrate", text=setup["text"])
    table = tomllib.loads(text) if status == 0 else {}
    if (table.get("format"), table.get("memory_bits")) != (2, 16):
        yield f"status {status}, and {text[:100]!r}"
    names = table.get("names", {})
    if "names" in setup and (len(names) != setup["names"] or any(names.get(it) != word for it, word in setup["words"].items())):
        yield f"names {names}"
    for place, key, wanted in setup["calls"]:
        found = table.get("call", [])[place:place + 1]
        if [str(it.get(key)) for it in found] != [wanted]:
            yield f"call {place}: {wanted} is wanted of {key}: {found}"


def tables(folder, *names):
    """The name of each table's set-up, its text, and what is wanted of it."""
    for name in names:
        for table in tomllib.loads(pathlib.Path(folder, f"{name}.toml").read_text())["table"]:
            yield from ((f"{table['name']}: {text}", table["head"] + text + table["tail"], wanted) for text, wanted in table["cases"])


def main(program, folder):
    texts = list(tables(folder, "refusals", "names", "profiles"))
    migrations = tomllib.loads(pathlib.Path(folder, "migrations.toml").read_text())["set-up"]
    results = {
        "texts": tried(texts, lambda case: faults_of_text(program, *case[1:])),
        "operations": tried(list(tables(folder, "operations")), lambda case: faults_of_operation(program, *case[1:])),
        "migrations": tried(migrations, lambda setup: faults_of_migration(program, setup)),
    }
    # What is wanted of another text is not told of these.
    planted = [case for case in texts[::20] if not list(faults_of_text(program, case[1], "204 at top key zeta"))]
    print("; ".join(f"{name}: {passed} passed, {failed} failed" for name, (passed, failed) in results.items()) + f"; {len(planted)} planted faults not told")
    return 1 if planted or any(failed or not passed for passed, failed in results.values()) else 0


if __name__ == "__main__":
    sys.exit(main(*sys.argv[1:]))
