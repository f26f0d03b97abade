#!/usr/bin/env python3
"""marks.py PROGRAM FOLDER: `marks` of the set-ups in the folders of FOLDER, each alone, and all of them as a table.

Of each the marks have to be what its report says of its expectations: `right` where that has `[met]`, `open` where an expectation begins
with `?`, else `not` and what was expected; and the counts. The exit status is that of `check`, and so is the text of a refusal. Each key
of FOLDER/exercise_answers is all right, each exercise of FOLDER/exercises all open, and a key with one answer changed tells that one
alone. The table is read as CSV, also with file names that have commas, quotation marks and line ends.

`marks --of` each exercise, and of each key in its place, is asked for the key, for the exercise, for keys with answers that are
cut short, taken out or wrong, and for other set-ups: with a call more or less, another word, memory or name. Its rows have to be
those that a model here makes of the files and the report. The exit status is that of the rows: 0 where each is all right, and else the
greatest of 1 for one that is not, or is of another set-up, 2 for a set-up that is refused, or each where the exercise is, and 3 for a
file that cannot be read. What the files themselves expect does not count.
"""
import csv
import io
import itertools
import os
import pathlib
import re
import sys
import tempfile
import tomllib

from program import answer, run, side_by_side

CALL = re.compile(r"(\d+ \d+ [a-z_]+): [a-z0-9 /]+?(?: \[(met|not met: (.*))\])?")
COUNT = re.compile(r"expected (\d+) of (\d+)")
EXPECT = re.compile(r'(\bexpect\s*=\s*)"[^"\n]*"')
HEAD = ["file", "right", "of", "wrong", "open", "note"]
HEAD_OF = ["file", "right", "of", "wrong", "too short", "open", "note"]
REPLY = re.compile(r"\d+ \d+ [a-z_]+: ([a-z0-9 /]+?)(?: \[(?:met|not met: .*)\])?")
BOOT = ["profile", "memory_bits", "root_radix", "threads", "endpoints", "untyped"]
WORDS = ["thread", "op", "cap", "kind", "size_bits", "root", "index", "depth", "offset", "count", "src_root", "src_index", "src_depth", "rights", "word",
         "label", "words"]
NAMES = ["a, b.toml", 'a "b".toml', "a\nb.toml", "\u00e9 \u4e2d.toml"]
# A spreadsheet computes a cell that begins so.
FORMULAS = ["=cmd()|evil.toml", "+1.toml", "-1+1.toml", "@sum(1,1).toml"]


def marks_in(report):
    """The calls of a report that expect something, each with the line of its mark."""
    for line in report.splitlines():
        found = CALL.fullmatch(line)
        if not found:
            return
        head, outcome, expected = found.groups()
        if outcome == "met":
            yield head, "right"
        elif outcome:
            yield head, "open" if expected.startswith("?") else f"not {expected}"


def wanted(report):
    """What `marks` has to write, by the report of `check`, and its row of the table without the name."""
    lines = report.splitlines()
    count = COUNT.fullmatch(lines[-1]) if lines else None
    if not count:
        return report, ["", "", "", "", "refused"]
    marks = list(marks_in(report))
    opened = [head.split()[0] for head, mark in marks if mark == "open"]
    wrong = [head.split()[0] for head, mark in marks if mark.startswith("not ")]
    met, expected = count.groups()
    text = "".join(f"{head}: {mark}\n" for head, mark in marks) + f"marks {met} of {expected} open {len(opened)}\n"
    return text, [met, expected, " ".join(wrong), " ".join(opened), ""]


def table(program, names, text=b""):
    status, out = run(program, "marks", *names, text=text)
    return status, list(csv.reader(io.StringIO(out, newline="")))


def faults_of_all(program, paths):
    """Each set-up alone, and all of them in one table."""
    rows, statuses = [], []
    for path, (checked, report), marked in side_by_side(lambda path: (path, run(program, "check", path), run(program, "marks", path)), paths):
        text, row = wanted(report)
        if marked != (checked, text):
            yield f"{path}: not the marks of its report"
        rows.append([str(path), *row])
        statuses.append(checked)
    if table(program, paths) != (max(statuses), [HEAD, *rows]):
        yield "the table of all of them has other rows"


def faults_of_exercises(program, folder):
    for key in sorted(folder.glob("exercise_answers/*.toml")):
        text = key.read_text()
        count = len(EXPECT.findall(text))
        asked = folder / "exercises" / key.name
        if run(program, "marks", key)[1].splitlines()[-1] != f"marks {count} of {count} open 0":
            yield f"{key}: not all right"
        if run(program, "marks", asked)[1].splitlines()[-1] != f"marks 0 of {count} open {count}":
            yield f"{asked}: not all open"
        changed = EXPECT.sub(r'\1"dropped by nobody"', text, count=1)
        status, out = run(program, "marks", "-", text=changed)
        lines = out.splitlines()
        if (status, lines[-1]) != (1, f"marks {count - 1} of {count} open 0") or not lines[0].endswith(": not dropped by nobody"):
            yield f"{key}: the answer that was changed is not told"
        if not all(line.endswith(": right") for line in lines[1:-1]):
            yield f"{key}: with one answer changed another is not right"


def faults_of_names(program, key):
    with tempfile.TemporaryDirectory() as folder:
        names = [os.path.join(folder, name) for name in NAMES]
        for name in names:
            pathlib.Path(name).write_text(key.read_text())
        missing = os.path.join(folder, "none.toml")
        cells = table(program, [key, key])[1][1][1:]
        rows = [HEAD, *([name, *cells] for name in names), [missing, "", "", "", "", "cannot be read"], ["-", *cells]]
        if table(program, [*names, missing, "-"], text=key.read_bytes()) != (3, rows):
            yield "files with such names have other rows"


def faults_of_formulas(program, key, exercise):
    """Files whose names a spreadsheet would compute, and the same as paths: each name in the table begins with `./`."""
    with tempfile.TemporaryDirectory() as folder:
        for name in FORMULAS:
            pathlib.Path(folder, name).write_text(key.read_text())
        paths = [f"./{name}" for name in FORMULAS]
        for words in (["marks"], ["marks", "--of", str(exercise.resolve())]):
            text = answer(program, *words, "--", *FORMULAS, *paths, cwd=folder)[1]
            rows = list(csv.reader(io.StringIO(text, newline="")))[1:]
            if [row[0] for row in rows] != paths + paths:
                yield f"{' '.join(words[:2])}: files whose names are formulas are told as {[row[0] for row in rows]}"


def made(setup, call):
    """A call without its answer and its client, each name as its word."""
    return {key: setup["names"].get(str(value).removeprefix("@"), value) for key, value in call.items() if key in WORDS}


def difference(asked, given):
    """Where a set-up is another one than the exercise, answers left out."""
    for key in BOOT:
        if asked.get(key) != given.get(key):
            return f"differs at top key {key}"
    for number, (call, other) in enumerate(itertools.zip_longest(asked["call"], given["call"]), 1):
        if not call or not other:
            return f"differs at call {number} {'missing' if call else 'added'}"
        if made(asked, call) != made(given, other):
            key = next((key for key in WORDS if call.get(key) != other.get(key)), None)
            return f"differs at call {number} key {key}" if key else "differs at top key names"
    return None


def is_whole(question, answer, reply):
    """Whether an answer that is met says as much of the reply as is asked for."""
    if not question.startswith("?"):
        return len(answer) >= len(question)
    if not reply.startswith("delivered ") or question == "? words":
        return answer == reply
    return question == "?" or f" {question[2:]} " in answer


def mark_of(question, answer, reply):
    if answer is None:
        return "open"
    if reply == answer or reply.startswith(answer + " "):
        return "right" if is_whole(question, answer, reply) else "too short"
    return "open" if answer.startswith("?") else "wrong"


def row_of(program, exercise, answers):
    """The row of answers by an exercise, without the name."""
    asked, given = tomllib.loads(exercise), tomllib.loads(answers)
    if found := difference(asked, given):
        return ["", "", "", "", "", found]
    report = run(program, "check", "-", text=answers)[1].splitlines()
    marks = [(number, mark_of(question["expect"], call.get("expect"), REPLY.fullmatch(line)[1]))
             for number, (question, call, line) in enumerate(zip(asked["call"], given["call"], report), 1) if "expect" in question]
    numbers = [" ".join(str(number) for number, mark in marks if mark == kind) for kind in ("wrong", "too short", "open")]
    return [str(sum(mark == "right" for _, mark in marks)), str(len(marks)), *numbers, ""]


def status_of(row):
    """The exit status of a row without its name, alone."""
    note = row[-1]
    if not note:
        return 0 if row[0] == row[1] else 1
    return 1 if note.startswith("differs ") else 3 if note == "cannot be read" else 2


def without_answers(text):
    return re.sub(r',\s*expect = "[^"]*"', "", text)


def answers_of(key, exercise):
    """Answers that may be handed in: their names and texts."""
    yield "key", key
    yield "exercise", exercise
    yield "short", re.sub(r'"(delivered|refused) [^"]*"', r'"\1"', key)
    yield "shorter", re.sub(r'"(delivered \d+ from \d+)[^"]*"', r'"\1"', key)
    yield "named", re.sub(r'"(delivered \d+ from \d+ to \d+ badge) [^"]*"', r'"\1"', key)
    yield "wrong", EXPECT.sub(r'\1"dropped by nobody"', key, count=2)
    yield "taken out", re.sub(r',\s*expect = "[^"]*"', "", key, count=1)
    yield "gone", without_answers(key)
    yield "other", without_answers(key).replace("memory_bits = 16", "memory_bits = 17", 1)
    end = key.rindex("]")
    yield "more", key[:end] + '{ thread = 2048, op = "suspend", cap = 2 },\n' + key[end:]
    yield "less", key[:key.rindex("{ thread")] + "]\n"
    last = key.rindex("cap = ")
    yield "word", key[:last] + re.sub(r'cap = [^,]*', "cap = 77", key[last:], count=1)
    yield "operation", re.sub(r'op = "\w+", (cap = [^,]*),[^\n]*', r'op = "suspend", \1 },', key, count=1)
    yield "memory", key.replace("memory_bits = 16", "memory_bits = 17", 1)
    yield "name", key.replace("root = 1", "root = 2", 1)
    yield "client", key.replace("format = 2", "format = 2\nlimit = 60000", 1)


def faults_of_statuses(program, path, place, of):
    """The exit status by an exercise that is in `of`: all right, nothing answered, another set-up, a set-up that is refused, no file."""
    (place / "refused.toml").write_text("format = 3")
    for names, status in [(["key", "key"], 0), (["key", "gone"], 1), (["key", "other"], 1), (["gone", "refused.toml"], 2),
                          (["refused.toml", "none.toml"], 3)]:
        if table(program, ["--of", of, *(place / name for name in names)])[0] != status:
            yield f"{path}: of {' and '.join(names)} the exit status is not {status}"


def faults_by_exercise(program, folder, path):
    key, exercise = path.read_text(), (folder / "exercises" / path.name).read_text()
    with tempfile.TemporaryDirectory() as place:
        files = [(pathlib.Path(place, name), text) for name, text in answers_of(key, exercise)]
        for file, text in files:
            file.write_text(text)
        for asked in (exercise, key):
            of = pathlib.Path(place, "of.toml")
            of.write_text(asked)
            rows = [[str(file), *row_of(program, asked, text)] for file, text in files if file.name != "client"]
            rows.append([str(files[-1][0]), *rows[0][1:]])
            if table(program, ["--of", of, *(file for file, _ in files)]) != (1, [HEAD_OF, *rows]):
                yield f"{path}: other marks by {'the key' if asked == key else 'the exercise'}"
            if table(program, ["--of", of], text=key.encode()) != (0, [HEAD_OF, ["-", *rows[0][1:]]]):
                yield f"{path}: other marks of standard input"
            for (file, _), row in zip(files, rows):
                if table(program, ["--of", of, file]) != (status_of(row[1:]), [HEAD_OF, row]):
                    yield f"{path}: other marks of {file.name} alone"
        yield from faults_of_statuses(program, path, pathlib.Path(place), of)
        of.write_text("format = 3")
        if table(program, ["--of", of, files[0][0]]) != (2, [HEAD_OF, [str(files[0][0]), "", "", "", "", "", "exercise refused"]]):
            yield f"{path}: an exercise that is refused marks"
        if run(program, "marks", "--of", pathlib.Path(place, "none"), files[0][0]) != (3, ""):
            yield f"{path}: an exercise that cannot be read marks"


def main():
    program, folder = os.path.abspath(sys.argv[1]), pathlib.Path(sys.argv[2])
    paths = sorted(folder.glob("*/*.toml"))
    keys = sorted(folder.glob("exercise_answers/*.toml"))
    by_exercises = side_by_side(lambda key: list(faults_by_exercise(program, folder, key)), keys)
    wrong = [*faults_of_all(program, paths), *faults_of_exercises(program, folder), *sum(by_exercises, []), *faults_of_names(program, keys[0]),
             *faults_of_formulas(program, keys[0], folder / "exercises" / keys[0].name)]
    print("\n".join([*wrong, f"{len(paths)} set-ups marked, {len(wrong)} wrong"]))
    return 1 if wrong or not paths else 0


if __name__ == "__main__":
    sys.exit(main())
