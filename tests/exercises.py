#!/usr/bin/env python3
"""exercises.py PROGRAM SETUPS GOALS: each exercise in SETUPS/exercises is its key in SETUPS/exercise_answers with questions for answers; and
each exercise with a goal in GOALS has a key in GOALS/keys that reaches it.

With questions: the two are the same text but for what their calls expect. In the exercise that is one question throughout, "?" or "? LAST",
where LAST is the last part of a delivery that some answer of the key has: so no question says which calls deliver. The report of the exercise
is that of the key with no answer met, and its status is 1. The link that tools/links.py writes for it has its title and its text.

With a goal: a key is its exercise with some calls more, after the line `# your calls`, of the threads that this line names, or of any if it
names none. The exercise has one expectation, that of its last call, which is not met; in its key it is met, and no call that was
added is refused. Each call of a key is needed: without one of them the expectation is not met.

The first line of either is the title. No number has two names in an exercise with questions or in one of SETUPS/examples: a drawing has a name
only if it is the one of its number.
"""
import base64
import pathlib
import re
import sys
import tomllib
import zlib

from program import run

sys.path.append(str(pathlib.Path(__file__).resolve().parent.parent / "tools"))

import links  # noqa: E402

EXPECT = re.compile(r'(\bexpect\s*=\s*)"([^"\n]*)"')
PARTS = ("from", "to", "badge", "label", "words")
TITLE = "# exercise: "
LINK = re.compile(r"- \[(.*)\]\(ADDRESS#name=[\w.]+&setup=([\w-]+)\)")
PLACE = re.compile(r"^\s*# your calls(?: of (.+))?$")


def parts_told(answer):
    """How many parts of a delivery an answer tells."""
    return sum(answer.startswith("delivered") and f" {part} " in f"{answer} " for part in PARTS)


def question_for(key):
    """What is asked in place of each answer of a key."""
    most = max(parts_told(answer) for _, answer in EXPECT.findall(key))
    return f"? {PARTS[most - 1]}" if most else "?"


def unanswered(report, question):
    """The report of the exercise, by that of its key."""
    told = report.replace(" [met]", f" [not met: {question}]")
    return re.sub(r"expected \d+ of (\d+)\n$", r"expected 0 of \1\n", told)


def linked(path):
    """The title and the text that a link has in it."""
    title, packed = LINK.fullmatch(links.line("ADDRESS", path)).groups()
    return title, zlib.decompress(base64.urlsafe_b64decode(packed + "=" * (-len(packed) % 4)), -15).decode()


def faults_of_questions(exercise, key):
    """What is wrong with an exercise whose answers are asked for, and its key."""
    text, answers = exercise.read_text(), key.read_text()
    question = question_for(answers)
    if text != EXPECT.sub(rf'\1"{question}"', answers):
        yield f"it is not its key with {question!r} for each answer"
    if exercise.with_suffix(".report").read_text() != unanswered(key.with_suffix(".report").read_text(), question):
        yield "its report is not that of its key without an answer met"
    if exercise.with_suffix(".status").read_text() != "1\n":
        yield "its status is not 1"
    if linked(exercise) != (text.splitlines()[0].removeprefix(TITLE), text):
        yield "its link has another title or text"


def named_twice(path):
    """The numbers that have more than one name in a set-up."""
    values = list(tomllib.loads(path.read_text()).get("names", {}).values())
    return sorted({it for it in values if values.count(it) > 1})


def marks(program, text):
    """How many expectations are met, of how many, and the exit status."""
    status, written = run(program, "marks", "-", text=text)
    found = re.search(r"^marks (\d+) of (\d+) ", written, re.M)
    return (*map(int, found.groups()), status) if found else (written, status)


def refused(program, text):
    """The numbers of the calls that are refused."""
    return [int(it) for it in re.findall(r"^(\d+) \d+ \w+: refused", run(program, "check", "-", text=text)[1], re.M)]


def added(exercise, key):
    """The lines that a key has more, with the line before which they stand; or None where it differs otherwise."""
    more = len(key) - len(exercise)
    at = next((at for at, (one, other) in enumerate(zip(exercise, key)) if one != other), len(exercise))
    return (at, key[at:at + more]) if more > 0 and key[:at] + key[at + more:] == exercise else None


def faults_of_goal(program, exercise, key):
    """What is wrong with an exercise with a goal, and its key."""
    text = exercise.read_text()
    lines = text.splitlines(keepends=True)
    places = [(at, found[1]) for at, found in enumerate(map(PLACE.match, lines)) if found]
    if len(places) != 1:
        yield f"it has {len(places)} lines '# your calls'"
        return
    (at, names), found = places[0], added(lines, key.read_text().splitlines(keepends=True))
    if found is None or found[0] != at + 1:
        yield "its key is not the exercise with calls more behind the line '# your calls'"
        return
    calls = found[1]
    threads = [f"@{it.strip()}" for it in names.split(",")] if names else None
    for call in tomllib.loads(f"call = [\n{''.join(calls)}]")["call"]:
        if threads is not None and call["thread"] not in threads:
            yield f"its key has a call of {call['thread']}, and not of {names}"
    given = tomllib.loads(text)["call"]
    if [number for number, call in enumerate(given, 1) if "expect" in call] != [len(given)]:
        yield "not its last call alone expects something"
    yield from faults_of_marks(program, lines, at + 1, calls)


def faults_of_marks(program, lines, at, calls):
    def with_calls(some):
        return "".join([*lines[:at], *some, *lines[at:]])

    if marks(program, with_calls([])) != (0, 1, 1):
        yield f"it is reached by no call, or refused: {marks(program, with_calls([]))}"
    if marks(program, with_calls(calls)) != (1, 1, 0) or refused(program, with_calls(calls)):
        yield f"its key does not reach it: {marks(program, with_calls(calls))}"
    for left in range(len(calls)):
        if marks(program, with_calls(calls[:left] + calls[left + 1:]))[:2] != (0, 1):
            yield f"its key reaches it without {calls[left].strip()}"


def faults_of_pairs(exercises, keys, faults):
    """What is wrong with the exercises of a folder and their keys in another one, and how many there are."""
    found, wanted = ({path.name for path in folder.glob("*.toml")} for folder in (exercises, keys))
    wrong = [f"{name} stands in only one folder" for name in sorted(found ^ wanted)]
    for name in sorted(found & wanted):
        if not (exercises / name).read_text().startswith(TITLE):
            wrong.append(f"{name}: its first line is not {TITLE!r} and a title")
        wrong += [f"{name}: {fault}" for fault in faults(exercises / name, keys / name)]
    return wrong, len(found)


def main():
    program, setups, goals = sys.argv[1], *map(pathlib.Path, sys.argv[2:4])
    exercises = setups / "exercises"
    wrong, count = faults_of_pairs(exercises, setups / "exercise_answers", faults_of_questions)
    of_goals, goal_count = faults_of_pairs(goals, goals / "keys", lambda exercise, key: faults_of_goal(program, exercise, key))
    texts = [*exercises.glob("*.toml"), *setups.glob("examples/*.toml")]
    wrong += [*of_goals, *(f"{path.name}: {it} has two names" for path in sorted(texts) for it in named_twice(path))]
    questions = sum(len(EXPECT.findall(it.read_text())) for it in exercises.glob("*.toml"))
    print("\n".join([*wrong, f"{count} exercises with {questions} questions, {goal_count} with a goal, {len(wrong)} faults"]))
    return 1 if wrong or not count or not goal_count else 0


if __name__ == "__main__":
    sys.exit(main())
