#!/usr/bin/env python3
"""several_files.py PROGRAM FOLDER: `check` of several files, of one with `--quiet`, and of several without `check`.

The set-ups in the folders of FOLDER, with others that are not met, refused, empty, too long or not there, are checked alone and then
together. The lines have to be those of the reports' ends, the summary has to count them, the exit status has to be the greatest of
theirs, and standard error has to say of each file what it says of it alone.
"""
import os
import pathlib
import random
import re
import subprocess
import sys
import tempfile

SECONDS = 600
SIZES = "format = 2\nmemory_bits = 16\nroot_radix = 4\nthreads = 2\nendpoints = 1\n"
CALL = '[[call]]\nthread = 2048\nop = "nbsend"\ncap = 4\n'
# the text of a file, and the end of its line
TEXTS = {
    "met.toml": (SIZES + CALL + 'expect = "dropped"\n', "expected 1 of 1"),
    "nothing expected.toml": (SIZES + CALL, "expected 0 of 0"),
    "unmet.toml": (SIZES + CALL * 2 + 'expect = "done"\n', "expected 0 of 1"),
    "no_reply.toml": (SIZES + CALL + 'expect = "don"\n', "expected 0 of 1"),
    "unexpected.toml": (SIZES + CALL.replace("cap = 4", "cap = 9"), "expected 0 of 0"),
    "named.toml": (SIZES + "[names]\na = 2048\nep = 4\n" + CALL.replace("2048", '"@a"').replace("cap = 4", 'cap = "@ep"') + 'expect = "done"\n',
                   "expected 0 of 1"),
    "many.toml": (SIZES + CALL.replace("cap = 4", "cap = 9") * 22 + (CALL + 'expect = "done"\n') * 21, "expected 0 of 21"),
    "refused.toml": ("format = 3\n", "set-up refused 204 at top key format"),
    "no_text.toml": ("format\n", "set-up refused 200 at text"),
    "empty.toml": ("", "set-up refused 202 at top key format"),
    "-name": (SIZES, "expected 0 of 0"),
    "\u00e9\u4e2d: a name": (SIZES, "expected 0 of 0"),
}
UNREAD = "cannot be read"
KINDS = {0: "met", 1: "unmet", 2: "refused", 3: "unread"}


def run(program, words, text=b"", **how):
    how = {"stdout": subprocess.PIPE, "stderr": subprocess.PIPE, **how}
    done = subprocess.run([program, *words], **({} if "stdin" in how else {"input": text}), timeout=SECONDS, **how)
    return done.returncode, (done.stdout or b"").decode(), (done.stderr or b"").decode()


def summary(statuses):
    counts = " ".join(f"{kind} {statuses.count(status)}" for status, kind in KINDS.items())
    return f"files {len(statuses)} {counts}\n"


def named(name, error):
    """What standard error says of a file alone, with its name before each line that has it not."""
    shown = "standard input" if name == "-" else name or "''"
    for line in error.splitlines(keepends=True):
        said = line.removeprefix("sel4sim: ")
        is_part = not line.startswith("sel4sim: ") or said == "reading failed\n" or re.fullmatch(r"\d+ more\n", said)
        has_name = said.startswith(f"{shown}: ")
        yield line if is_part or has_name else f"sel4sim: {shown}: {said}"


class Files:
    """Checks files alone, and remembers what was answered."""

    def __init__(self, program, text):
        self.program, self.text, self.known = program, text, {}

    def alone(self, name):
        """The exit status, the end of the line, and what standard error says."""
        if name not in self.known:
            words = ["check"] if name == "-" else ["check", "--", name]
            status, out, error = run(self.program, words, self.text)
            end = UNREAD if status == 3 else out.splitlines()[-1]
            error = re.sub(r"(sel4sim why --call \d+) tells why", r"\1 - tells why", error) if name == "-" else error
            self.known[name] = status, end, "".join(named(name, error))
        return self.known[name]

    def wrong(self, words, names):
        """What is wrong where the words check these files together."""
        told = [self.alone(name) for name in names]
        wanted = (max(status for status, _, _ in told), "".join(f"{name}: {end}\n" for name, (_, end, _) in zip(names, told))
                  + summary([status for status, _, _ in told]), "".join(error for _, _, error in told))
        answer = run(self.program, words, self.text)
        if answer != wanted:
            yield f"{words}: {answer}\nwanted {wanted}"


def runs_of(files, setups):
    """The words of each run, and the files that it checks."""
    texts = list(TEXTS)
    yield ["check", "--", *texts], texts
    for other in ("met.toml", "unmet.toml", "refused.toml", "missing.toml"):
        for name in ("met.toml", "-", "unmet.toml", "refused.toml", "missing.toml", "/", ""):
            yield ["check", name, other], [name, other]
            if name:
                yield [name, other], [name, other]
    for name in (*texts, "missing.toml", "/", "-"):
        yield ["check", "--quiet", "--", name], [name]
    yield ["check", "--quiet"], ["-"]
    yield ["check", "--quiet", "met.toml", "unmet.toml"], ["met.toml", "unmet.toml"]
    yield ["check", "-", "met.toml"], ["-", "met.toml"]
    yield ["check", "met.toml", "met.toml"], ["met.toml", "met.toml"]
    yield ["check", "met.toml", "--", "-", "-name"], ["met.toml", "-", "-name"]
    yield ["met.toml", "--", "-name"], ["met.toml", "-name"]
    yield ["met.toml", "unmet.toml", "check"], ["met.toml", "unmet.toml", "check"]
    yield ["check", "long.toml", "met.toml"], ["long.toml", "met.toml"]
    yield ["check", *setups], setups
    drawn = random.Random(1)
    for _ in range(40):
        names = drawn.choices([name for name in texts if name != "-name"] + ["missing.toml"], k=drawn.randint(2, 9))
        yield ["check", *names], names


def other_lines(program):
    """Lines that take one file alone, those that name standard input twice, and those that begin with a word that is neither a
    command nor a file: what is wrong."""
    refused = (["trace", "met.toml", "unmet.toml"], ["why", "met.toml", "unmet.toml"], ["check", "-", "-"], ["-", "met.toml", "-"],
               ["chek", "met.toml"], ["", "met.toml"])
    for words in refused:
        status, out, error = run(program, words)
        if status != 4 or out or not error.startswith("sel4sim: command line refused\n"):
            yield f"{words}: {status}, {out!r}, {error!r}"
    for words, one in ((["met.toml", "check"], "met.toml"), (["met.toml", "check", "unmet.toml"], "unmet.toml")):
        if run(program, words) != run(program, ["check", one]):
            yield f"{words}: not as {one} alone"


def whole_texts(program, text):
    """What is written of a file with names and of standard input, word for word: what is wrong."""
    answer = run(program, ["check", "named.toml", "-"], text)[:2]
    if answer != (1, "named.toml: expected 0 of 1\n-: expected 1 of 1\nfiles 2 met 1 unmet 1 refused 0 unread 0\n"):
        yield f"named.toml and standard input: {answer}"


def failing_devices(program):
    """An output that takes nothing, and standard input that cannot be read: what is wrong."""
    with open("out", "wb") as unreadable:
        answer = run(program, ["check", "-", "met.toml"], None, stdin=unreadable)
    lines = f"-: {UNREAD}\nmet.toml: expected 1 of 1\n" + summary([3, 0])
    if answer != (3, lines, "sel4sim: reading failed\nsel4sim: standard input: Bad file descriptor (os error 9)\n"):
        yield f"standard input that cannot be read: {answer}"
    wanted = "sel4sim: writing failed\nsel4sim: standard output: No space left on device (os error 28)\n"
    with open("/dev/full", "wb") as full:
        status, _, error = run(program, ["check", "met.toml", "met.toml"], stdout=full)
    if (status, error) != (3, wanted):
        yield f"a full disk: {status}, {error!r}"


def main():
    program, folder = os.path.abspath(sys.argv[1]), pathlib.Path(sys.argv[2]).absolute()
    setups = [str(path) for path in sorted(folder.glob("*/*.toml"))]
    count, wrong = 0, []
    with tempfile.TemporaryDirectory() as room:
        os.chdir(room)
        for name, (text, _) in TEXTS.items():
            pathlib.Path(name).write_text(text)
        with open("long.toml", "wb") as file:
            file.truncate(1 << 26)
        files = Files(program, TEXTS["met.toml"][0].encode())
        wrong += [f"{name}: {files.alone(name)[1]}" for name, (_, end) in TEXTS.items() if files.alone(name)[1] != end]
        for words, names in runs_of(files, setups):
            count += 1
            wrong += files.wrong(words, names)
        wrong += [*other_lines(program), *whole_texts(program, files.text), *failing_devices(program)]
    for text in wrong:
        print(text)
    print(f"several files: {count} runs, {len(setups)} worked set-ups in one, {len(wrong)} wrong answers")
    return 1 if wrong or not setups else 0


sys.exit(main())
