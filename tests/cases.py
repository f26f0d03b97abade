#!/usr/bin/env python3
"""cases.py PROGRAM CALLS FILE..: what is written for small set-ups, each a case of one of these files.

A case has the words of a `command` and a `set-up`, or its `bytes`; or in place of a command the `order` of its clients' calls, in which
CALLS, the program of crates/test_calls, runs it. Of what is written these are wanted, as many of them as the case has: the `status`; the
whole `text`; how it `begins` and `ends`; lines that it `has`; `lines`, pairs of a beginning and of how the lines with it go on, in their order
and as many; how many `answers` an exploration lists.

In the end each of these is made another one, which has to be told."""
import pathlib
import re
import shlex
import sys
import tomllib

from program import run, side_by_side

ANSWER = re.compile(r"^  \d+\.\d+ ", re.M)
# Another value in place of each that may be wanted.
OTHERS = {
    "status": lambda it: it + 1,
    "text": lambda it: it + "\n",
    "begins": lambda it: "?" + it,
    "ends": lambda it: it + "?",
    "has": lambda it: [*it, "?"],
    "lines": lambda it: [[begin, [*wanted, ""]] for begin, wanted in it],
    "answers": lambda it: it + 1,
}


def answer_to(program, calls, case):
    """The status and the text of a case."""
    words = [calls, "order", *map(str, case["order"])] if "order" in case else [program, *shlex.split(case["command"])]
    return run(*words, text=bytes(case["bytes"]) if "bytes" in case else case["set-up"])


def faults(case, status, text):
    """What of an answer is not as wanted."""
    lines = text.splitlines()
    if status != case.get("status", status):
        yield f"status {status}, wanted {case['status']}"
    if text != case.get("text", text) or not (text.startswith(case.get("begins", "")) and text.endswith(case.get("ends", ""))):
        yield f"another text: {text}"
    yield from (f"there is no line {line!r}: {text}" for line in case.get("has", []) if line not in lines)
    for begin, wanted in case.get("lines", []):
        found = [line.removeprefix(begin) for line in lines if line.startswith(begin)]
        if len(found) != len(wanted) or not all(map(str.startswith, found, wanted)):
            yield f"{begin!r}: {wanted} is wanted, and found was {found}"
    answers = len(ANSWER.findall(text))
    if answers != case.get("answers", answers):
        yield f"{answers} answers, wanted {case['answers']}"


def planted(case):
    """The case with another value in place of each that is wanted, and with another one of each pair of lines."""
    for key in OTHERS.keys() & case.keys():
        values = [[pair] for pair in case[key]] if key == "lines" else [case[key]]
        yield from ({**case, key: OTHERS[key](it)} for it in values)


def main(program, calls, *files):
    cases = [case for file in files for case in tomllib.loads(pathlib.Path(file).read_text())["case"]]
    answers = side_by_side(lambda case: answer_to(program, calls, case), cases)
    wrong = [f"{case['name']}: {it}" for case, answer in zip(cases, answers) for it in faults(case, *answer)]
    others = [(case, answer, it) for case, answer in zip(cases, answers) for it in planted(case)]
    wrong += [f"{case['name']}: no fault of {it}" for case, answer, it in others if not list(faults(it, *answer))]
    wrong += [f"{case['name']}: nothing is wanted" for case in cases if not OTHERS.keys() & case.keys()]
    print("\n".join([*wrong, f"{len(cases)} set-ups with what is written for them, {len(others)} planted faults; {len(wrong)} wrong"]))
    return 1 if wrong or not cases else 0


if __name__ == "__main__":
    sys.exit(main(*sys.argv[1:]))
