#!/usr/bin/env python3
"""answers.py [--pairs CALLS] PROGRAM SETUPS ANSWERS [WORD..]: each text that is wanted in the folders of SETUPS and ANSWERS, by the
program, byte for byte; with words, only those whose paths have one.

NAME.toml is a set-up. What a command writes of it stands beside it, in a file whose suffix FORMS has with the command. Options stand in
the file NAME.args, one word a line, or else in the name: NAME.after-14.slot-320.audit is what `audit --after 14 --slot 320` writes, and
NAME.first_2.explore what `explore --first 2` does. FORMS says which status is wanted: that in NAME.status, and 0 where there is no such
file, or the one that the text stands for. If NAME.err is there, it is what standard error says.

With --pairs CALLS, the program of crates/test_calls, each report is also wanted over three pairs of stores, for the set-up as it is and,
if PROGRAM migrates it, for what that gives.

In the end, of each folder, what the first command wrote is compared with another text, and has to differ. So has what was written
for the set-ups of PLANTED from a file of SETUPS that has one wrong line, and from another status; over each pair, too."""
import argparse
import os
import pathlib
import re
import subprocess
import sys

from program import PAIRS, run, side_by_side


def noted(file, _):
    """The status that a file has beside it."""
    status = file.with_suffix(".status")
    return int(status.read_text()) if status.exists() else 0


def told(_, text):
    """The status that a text stands for."""
    if not text:
        return 4
    return 2 if text.startswith(b"set-up refused ") else 1 if UNMET.search(text) else 0


UNMET = re.compile(rb"^never .* possible( decided)?$|\[not met\]|^stuck\.| limit calls ", re.M)
FORMS = {
    ".report": ("check", noted),
    ".trace": ("trace", noted),
    ".why": ("why", noted),
    ".tree": ("tree", told),
    ".dot": ("tree --dot", told),
    ".audit": ("audit", told),
    ".ever": ("ever", told),
    ".never": ("never", told),
    ".out": ("policy {name}.policy.toml", noted),
    ".listing": ("policy {name}.policy.toml --listing", told),
    ".draft": ("draft", told),
    ".explore": ("explore", told),
}
# What stands beside these texts; the answers of `how` are for hows.py.
BESIDE = (".toml", ".status", ".args", ".err", ".how")
# Texts with one wrong line, and the right ones.
PLANTED = {"planted.report": "examples/send_then_receive.report", "planted.why": "why_threads/thread_of_many.why"}
# Of a policy that is no TOML document the words on standard error are those of the reader: their place alone is compared.
NO_TOML = b"policy refused 600 at text\n"


def words_of(file):
    """The words of the command line whose text a file has, behind the program."""
    name, *parts = file.stem.split(".")
    args = file.with_suffix(".args")
    options = args.read_text().split() if args.exists() else \
        [word for option, *value in (re.split("[-_]", part, maxsplit=1) for part in parts) for word in (f"--{option}", *value)]
    return [*FORMS[file.suffix][0].format(name=name).split(), *options, f"{name}.toml"]


def wanted_by(file):
    """The status, the text, and what standard error says, or None where that is not compared."""
    text, error = file.read_bytes(), file.with_suffix(".err")
    return FORMS[file.suffix][1](file, text), text, error.read_bytes() if error.exists() or file.suffix == ".out" else None


def answer_to(program, file):
    done = subprocess.run([program, *words_of(file)], cwd=file.parent, stdin=subprocess.DEVNULL, capture_output=True, timeout=600)
    return done.returncode, done.stdout, done.stderr


def faults(answer, wanted):
    """What of an answer is not as wanted."""
    for what, got, want in zip(("status", "text", "standard error"), answer, wanted):
        is_place = what == "standard error" and wanted[1] == NO_TOML
        if want is not None and (got != want if not is_place else got.split(b": error: ")[0] != want.split(b": error: ")[0]):
            yield f"{what} wanted\n{shown(want)}\ngot\n{shown(got)}"


def over_pairs(program, calls, file):
    """The name of each pair of stores, and its answer to the set-up of a report, or to what that is migrated to."""
    text = file.with_suffix(".toml").read_bytes()
    status, migrated = run(program, "migrate", text=text)
    for how, given in (("", text), *[("migrated, ", migrated)] * (status == 0)):
        for pair in PAIRS:
            ended, written = run(calls, *pair, text=given)
            yield f"{how}over {' and '.join(pair)}", (ended, written.encode(), None)


def shown(it):
    return it.decode("utf-8", "replace") if isinstance(it, bytes) else it


def planted(answers):
    """The folders in which an answer is as wanted where another text is."""
    folders = {}
    for file in answers:
        folders.setdefault(file.parent, []).append(file)
    for folder, (first, *others) in folders.items():
        other = next((it for it in others if it.read_bytes() != first.read_bytes()), None)
        if other and not any(faults(answers[first], wanted_by(other))):
            yield f"{first}: no fault where {other} is wanted"


def planted_lines(answers, setups):
    """The texts of PLANTED for which no fault is found; the answers to a file are a list."""
    for name, right in PLANTED.items():
        text, (status, wanted, _) = (setups / name).read_bytes(), wanted_by(setups / right)
        for answer in answers.get(setups / right, []):
            if not any(faults(answer, (status, text, None))):
                yield f"{right}: no fault if {name} is wanted"
            if not any(faults(answer, (status + 1, wanted, None))):
                yield f"{right}: no fault if another status is wanted"


def main():
    parser = argparse.ArgumentParser(description="Compares each text that is wanted.")
    parser.add_argument("--pairs", type=os.path.abspath, metavar="CALLS")
    parser.add_argument("program", type=os.path.abspath)
    parser.add_argument("folders", type=pathlib.Path, nargs=2)
    parser.add_argument("words", nargs="*")
    told = parser.parse_args()
    program, calls, folders, words = told.program, told.pairs, told.folders, told.words
    there = sorted(it for folder in folders for it in folder.glob("*/*.*"))
    files = [it for it in there if it.suffix in FORMS and (not words or any(word in str(it) for word in words))]
    answers = dict(zip(files, side_by_side(lambda file: answer_to(program, file), files)))
    wrong = [f"{file}: {fault}" for file in files for fault in faults(answers[file], wanted_by(file))]
    reports = [it for it in files if calls and it.suffix == ".report"]
    by_pairs = dict(zip(reports, side_by_side(lambda file: list(over_pairs(program, calls, file)), reports)))
    wrong += [f"{file}: {pair}: {it}" for file, them in by_pairs.items() for pair, answer in them for it in faults(answer, wanted_by(file)[:2])]
    wrong += [*planted(answers), *planted_lines({file: [answers[file], *(it for _, it in by_pairs.get(file, []))] for file in files}, folders[0])]
    wrong += [f"{it}: FORMS has no command for it" for it in there if it.suffix not in (*FORMS, *BESIDE)]
    counts = {suffix: sum(it.suffix == suffix for it in files) for suffix in FORMS}
    wrong += [f"there is no {suffix}" for suffix, count in counts.items() if not count and not words]
    told_counts = ", ".join(f"{count} {suffix}" for suffix, count in counts.items())
    pairs = f", {len(reports)} reports over {len(PAIRS)} pairs of stores" if calls else ""
    print("\n".join([*wrong, f"{told_counts}: {len(files)} texts{pairs}, {len(wrong)} faults"]))
    return 1 if wrong or not files else 0


if __name__ == "__main__":
    sys.exit(main())
