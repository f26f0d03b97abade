#!/usr/bin/env python3
"""problem_matcher.py PROGRAM: reads what `check` says of some faults as a CI service does, by docs/problem-matcher.json.

Each fault has to be marked at its file, line and column, with its severity, and nothing else is to be. So has each line that
`policy` is to say of a policy that is broken: the breach in the policy, and below it the calls of the set-up that it comes from."""
import json
import pathlib
import re
import sys
import tempfile

from program import answer

TESTS = pathlib.Path(__file__).resolve().parent
MATCHER = TESTS.parent / "docs" / "problem-matcher.json"
LAYOUT = """format = 2
memory_bits = 16
root_radix = 4
threads = 2
endpoints = 1
call = [
  { thread = 2048, op = "nbsend", cap = 4, expect = "dropped" },
  { thread = 4096, op = "nbrecv", cap = 4, expect = "empty" },
]
"""
# A name, the text, and what is marked: the line, the column, the severity, and what the message begins with.
CASES = (
    ("met.toml", LAYOUT, []),
    ("unmet.toml", LAYOUT.replace('"empty"', '"waiting"'), [(8, 44, "error", "call 2: empty, and not waiting")]),
    ("unexpected.toml", LAYOUT.replace('4, expect = "dropped"', "9"), [(7, 3, "warning", "call 1: refused")]),
    ("unknown_key.toml", LAYOUT.replace("threads", "thread"), [(4, 1, "error", 'top: there is no key "thread"')]),
    ("value.toml", LAYOUT.replace('"nbrecv"', '"nbrcv"'), [(8, 20, "error", "call 2, key op")]),
    ("no_toml.toml", "format = \n", [(1, 10, "error", "TOML parse error: invalid value")]),
)


def marked(lines, problem):
    """The problems that a matcher finds: its patterns stand for lines that follow one another."""
    patterns = problem["pattern"]
    for at in range(len(lines) - len(patterns) + 1):
        found = [re.search(it["regexp"], line) for it, line in zip(patterns, lines[at:])]
        if all(found):
            parts = {key: match[group] for it, match in zip(patterns, found) for key, group in it.items() if key != "regexp"}
            yield (parts["file"], int(parts["line"]), int(parts["column"]), parts.get("severity", problem.get("severity")), parts["message"])


def faults(program, folder, matchers):
    """What is marked otherwise than it should be."""
    for name, text, wanted in CASES:
        (pathlib.Path(folder) / name).write_text(text)
        lines = answer(program, "check", name, cwd=folder)[2].splitlines()
        found = [it for matcher in matchers for it in marked(lines, matcher)]
        same = len(found) == len(wanted) and all(
            it[:4] == (name, *want[:3]) and it[4].startswith(want[3]) for it, want in zip(found, wanted))
        if not same:
            yield f"{name}: marked {found}, wanted {wanted}, of\n" + "\n".join(lines)


# What `policy` says of these, each by a file that is wanted.
POLICIES, BROKEN = TESTS / "answers" / "policies", ("take_told", "take_before_grant_joins", "network_system_breach")


def faults_of_policies(program, matchers):
    """What is marked otherwise than it should be of policies that are broken: each line once, as it stands."""
    for name in BROKEN:
        lines = answer(program, "policy", f"{name}.policy.toml", f"{name}.toml", cwd=POLICIES)[2].splitlines()
        found = ["{}:{}:{}: {}: {}".format(*it) for matcher in matchers for it in marked(lines, matcher)]
        wanted = (POLICIES / f"{name}.err").read_text().splitlines()
        if found != wanted or not any(": note: " in line for line in wanted):
            yield f"{name}: marked {found}, wanted {wanted}"


def main():
    program = str(pathlib.Path(sys.argv[1]).resolve())
    matchers = json.loads(MATCHER.read_text())["problemMatcher"]
    with tempfile.TemporaryDirectory() as folder:
        wrong = [*faults(program, folder, matchers), *faults_of_policies(program, matchers)]
    for fault in wrong:
        print(fault)
    print(f"{len(CASES)} set-ups and {len(BROKEN)} policies read by docs/problem-matcher.json, {len(wrong)} faults")
    return 1 if wrong else 0


sys.exit(main())
