#!/usr/bin/env python3
"""kernel_cases.py PROGRAM CALLS FOLDER: calls of a kernel, and what is there between them, by the cases in FOLDER.

Each case is a set-up with one endpoint and an untyped region of 4,096 bytes at 16384. Its calls have to get the replies that are wanted, and
the report of the calls before a question has to answer that question. This is so over the pair of stores that PROGRAM runs, and over the
others, which CALLS runs, the program of crates/test_calls."""
import pathlib
import re
import sys
import tomllib

from program import PAIRS, document, run, tried

BOOT = {"format": 1, "memory_bits": 16, "root_radix": 4, "endpoints": 1, "untyped": [{"base": 16384, "bits": 12}]}


class Report:
    """What a report shows behind its calls."""

    def __init__(self, text):
        self.replies = [line.split(": ", 1)[1] for line in text.splitlines() if re.match(r"\d+ \d+ ", line)]
        self.lines = {tuple(line.split(" ")[:2]): line.split(" ", 2)[2] for line in text.splitlines() if re.match(r"(thread|endpoint|slot) \d", line)}

    def queue(self, endpoint):
        """Who waits on an endpoint, in order."""
        state = self.lines.get(("endpoint", str(endpoint)), "idle")
        return [int(it) for it in state.split(" ")[1:]]

    def behind(self, thread):
        """Who waits behind a thread."""
        queues = (self.queue(name) for kind, name in self.lines if kind == "endpoint")
        return next((it[1] for queue in queues for it in zip(queue, queue[1:]) if it[0] == thread), 0)

    def answer(self, step):
        """The answer to the question of a step."""
        if "endpoint" in step:
            return {"waits": dict(enumerate(self.queue(step["endpoint"]))).get(step["place"], 0)}
        if "behind" in step:
            return {"waits": self.behind(step["behind"])}
        if "tcb" in step:
            state, _, inbox = self.lines.get(("thread", str(step["tcb"])), "").partition(" inbox ")
            return {"state": state, "inbox": inbox}
        held = self.lines.get(("slot", str(step["slot"])), "")
        return {"holds": held.removesuffix(" children"), "children": held.endswith(" children")}


def is_call(step):
    return "op" in step


def faults_over(ask, profile, case):
    """What of a case is not as wanted, where a set-up's report is asked for in this way."""
    calls = [{key: value for key, value in step.items() if key != "reply"} for step in case["steps"] if is_call(step)]
    boot = BOOT | {"profile": profile, "threads": case["threads"]}
    reports, made = {}, 0
    for place, step in enumerate(case["steps"]):
        made += is_call(step)
        if made not in reports:
            reports[made] = Report(ask(document(boot | {"call": calls[:made]})))
        report = reports[made]
        found = {"reply": report.replies[made - 1:made] == [step["reply"]] and step["reply"]} if is_call(step) else report.answer(step)
        wanted = {key: value for key, value in step.items() if key in found}
        if not wanted or any(found[key] != value for key, value in wanted.items()):
            yield f"step {place}: {wanted} is wanted, and found was {found}"


def faults(program, calls, profile, case):
    """The same over each pair of stores."""
    for words in ([program, "check"], *([calls, *pair] for pair in PAIRS)):
        yield from (f"{' '.join(words[1:])}: {it}" for it in faults_over(lambda text, it=words: run(*it, text=text)[1], profile, case))


def planted(program, profile, case):
    """The steps of a case in whose place another answer would be taken."""
    for place, step in enumerate(case["steps"]):
        key = [*step][-1]
        other = {**step, key: not step[key] if isinstance(step[key], bool) else 1 if isinstance(step[key], int) else "tcb"}
        if not list(faults_over(lambda text: run(program, "check", text=text)[1], profile, {**case, "steps": [*case["steps"][:place], other]})):
            yield f"{case['name']}: {other} is taken in place of {step}"


def main(program, calls, folder):
    files = [tomllib.loads(path.read_text()) for path in sorted(pathlib.Path(folder).glob("*.toml"))]
    cases = [(file["profile"], case) for file in files for case in file["case"]]
    passed, failed = tried(cases, lambda it: faults(program, calls, *it))
    wrong = [fault for it in cases[::4] for fault in planted(program, *it)]
    print("\n".join([*wrong, f"{passed} cases of a kernel over {1 + len(PAIRS)} pairs of stores, {failed} not as wanted; {len(wrong)} planted faults not told"]))
    return 1 if failed or wrong or not passed else 0


if __name__ == "__main__":
    sys.exit(main(*sys.argv[1:]))
