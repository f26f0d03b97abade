"""What each command costs on set-ups that grow in one direction each, those of directions.py."""

import pathlib
import tempfile

import directions
from measures import least_run

DRAFT, POLICY = "draft", "policy"

# The words of each command. The loader makes no more calls, and the policy is the draft's.
COMMANDS = {
    "check": "check",
    "tree": "tree",
    "why": "why",
    "trace": "trace",
    "audit": "audit",
    "ever": "ever --without {loader}",
    DRAFT: "draft --without {loader}",
    POLICY: "policy {policy}",
    "never": "never {asked} --without {loader}",
    "explore --first": "explore --first {calls}",
}


def subject(direction, command):
    return f"{direction}: {command}"


def runs(program, loader, folder):
    """Each command with its run; none that needs a draft which was not made."""
    path, policy, out = (folder / name for name in ("setup.toml", "policy.toml", "out"))
    path.write_text(loader.text())
    asked = ",".join(map(str, loader.asked))
    meant = {"loader": loader.thread, "asked": asked, "policy": policy, "calls": len(loader.calls)}
    limits = {}
    for command, words in COMMANDS.items():
        if command != POLICY or not limits[DRAFT]:
            own = [word.format(**meant) for word in words.split()]
            run = least_run([program, *own, path], policy if command == DRAFT else out)
            limits[command] = run.limit
            yield command, run


def costs_of(run):
    return {"limit": run.limit} if run.limit else {"seconds": f"{run.seconds:.6f}", "written": run.written}


def rows(program):
    with tempfile.TemporaryDirectory() as folder:
        for direction, (sizes, loader_of) in directions.DIRECTIONS.items():
            for size in sizes:
                for command, run in runs(program, loader_of(size), pathlib.Path(folder)):
                    yield {"subject": subject(direction, command), "size": size, "program": "proved", **costs_of(run)}
