#!/usr/bin/env python3
"""commands.py [--each] PROGRAM [CALLS]: every command with inputs and outputs that fail, and with memory that is refused.

LINES has command lines of each command of `PROGRAM --help`, which together have each of its options: one that no line has is
told as a fault, so a new command or option fails this test until it has a line here. A line of a command or an option that the
help does not have is told and left out. Of each line are tried
- inputs that cannot be opened, cannot be read or have no end, and outputs that cannot be written;
- each read and each write of a run, failing in turn, with all the bytes that a call asks for and with one byte at a time; of a stored
  run also with 16 at a time;
- each request for memory of a run, refused in turn. CALLS, the program of crates/test_calls, is tried in this way too.
Of the calls with one byte at a time, and of the requests of a run from a file, each is tried with --each, and else a hundred.

A run has to end with status 3, its line on standard error, and nothing written, or a beginning where a write failed; where memory was
refused it may also end as with ample memory, since the words that follow on standard error need some. The set-ups have
one client, so that `threads` has one answer. A small library that stands before the C library's counts the calls, and lets
one fail. It needs a C compiler; where there is none, that is told, and the first part alone is tried."""
import concurrent.futures
import os
import pathlib
import re
import shlex
import shutil
import struct
import subprocess
import sys
import tempfile

sys.path.insert(0, os.path.join(os.path.dirname(os.path.dirname(os.path.abspath(__file__))), "tools"))

from helps import helps  # noqa: E402

SIZES = "memory_bits = 16\nroot_radix = 4\nthreads = 2\nendpoints = 1\n"
NAMED = f"format = 2\n{SIZES}names = {{ a = 2048, b = 4096, endpoint = 4 }}\n"
SET_UP = NAMED + """call = [
    { thread = "@a", op = "send", cap = "@endpoint", label = 7, words = [1, 2] },
    { thread = "@b", op = "nbsend", cap = 9 },
    { thread = "@b", op = "recv", cap = "@endpoint", expect = "delivered 6144 from 2048" },
]
"""
# The set-up of a run that is read and written in pieces.
STORED = f"format = 1\n{SIZES}" + """[[untyped]]
base = 16384
bits = 12
[[call]]
thread = 2048
op = "send"
cap = 4
label = 7
words = [1, 2]
[[call]]
thread = 4096
op = "recv"
cap = 4
expect = "delivered 6144 from 2048"
"""
FIRST = f'format = 1\n{SIZES}[[call]]\nthread = 2048\nop = "nbsend"\ncap = 4\n'
# Two threads that are apart but for what a policy does not allow.
APART = NAMED.replace("threads = 2", "threads = 2\nuntyped = [{ base = 16384, bits = 12 }]") + """call = [
    { thread = "@a", op = "retype", cap = 5, kind = 4, size_bits = 1, root = 1, offset = 8, count = 2 },
    { thread = "@a", op = "mint", cap = 8, index = 1, depth = 1, src_root = 1, src_index = 4, rights = 1, word = 7 },
    { thread = "@a", op = "copy", cap = 9, index = 1, depth = 1, src_root = 1, src_index = 4, rights = 2 },
    { thread = "@a", op = "set_space", cap = 3, root = 9, word = 63 },
    { thread = "@a", op = "set_space", cap = 2, root = 8, word = 63 },
]
"""
LAYOUT = """arch x86_64
objects {
a = tcb
b = tcb
cn_a = cnode (4 bits)
cn_b = cnode (4 bits)
e = ep
}
caps {
a { cspace: cn_a (guard: 0, guard_size: 60) }
b { cspace: cn_b (guard: 0, guard_size: 60) }
cn_a { 1: e (W, badge: 7) }
cn_b { 1: e (R) }
}
"""
FILES = {"set_up.toml": SET_UP, "first.toml": FIRST, "stored.toml": STORED, "apart.toml": APART, "layout.cdl": LAYOUT,
         "policy.toml": 'policy = 1\nalone = ["a", "b"]\n'}
# The words of a line but its last, which is the file that it reads, or "" where it reads none.
LINES = [
    ("check", "set_up.toml"), ("check", "stored.toml"), ("check --strict --names", "set_up.toml"), ("check first.toml", "apart.toml"),
    ("check --quiet", "apart.toml"),
    ("marks", "set_up.toml"), ("marks --of set_up.toml", "set_up.toml"), ("record", "set_up.toml"),
    ("trace", "set_up.toml"), ("trace --names", "set_up.toml"), ("trace --ways", "set_up.toml"),
    ("migrate", "first.toml"),
    ("threads", "set_up.toml"), ("threads --first 1 --names", "set_up.toml"),
    ("why", "set_up.toml"), ("why --call 2 --names", "set_up.toml"),
    ("audit", "set_up.toml"), ("audit --after 1 --slot 128", "set_up.toml"), ("audit --without a --names", "set_up.toml"),
    ("ever", "set_up.toml"), ("ever --after 2 --without a --messages b --names", "set_up.toml"),
    ("never a,b --by endpoint", "apart.toml"), ("never a,b --after 2 --without a --messages b --names", "set_up.toml"),
    ("draft", "apart.toml"), ("draft --after 1 --without a --messages b", "apart.toml"),
    ("how a,b --message --badge 7 --states 100", "apart.toml"), ("how a,b --by endpoint", "apart.toml"),
    ("how a,b --after 2 --without b --hold", "set_up.toml"), ("how a,b --loss", "set_up.toml"),
    ("policy policy.toml", "apart.toml"), ("policy policy.toml --after 5 --how 3 --states 100", "apart.toml"),
    ("policy policy.toml --listing", "apart.toml"),
    ("explore", "set_up.toml"), ("explore --first 1 --states 100 --ends --names", "set_up.toml"),
    ("explore --witness 3.1", "set_up.toml"),
    ("tree", "set_up.toml"), ("tree --after 1 --dot --names", "set_up.toml"),
    ("new", ""), ("new --profile narrow --threads 3 --endpoints 2 --untyped 16384:12", ""),
    ("import", "layout.cdl"), ("import --shrink 12 --flows", "layout.cdl"), ("import --listing", "layout.cdl"),
    ("import --rights least", "layout.cdl"), ("import --strict", "layout.cdl"), ("import --cdl", "layout.cdl"), ("import --plain", "layout.cdl"),
    ("help", ""), ("help why", ""),
]
# These write a row of each file, also of one that cannot be read.
OF_FILES = ("check first.toml", "check --quiet", "marks --of set_up.toml")
# Set-ups whose words show a part of the text: a value, an element of an array, a table without a key, and the place at which
# the text breaks off.
REFUSED = [NAMED + 'call = [{ thread = "@a", op = "nbsend", cap = "@endpiont" }]\n',
           NAMED + '[[call]]\nthread = "@a"\nop = "nbsend"\ncap = 4\nwords = [1, "@b"]\n',
           NAMED + '[[call]]\nthread = "@a"\nop = "nbsend"\n', NAMED + '[[call]]\nthread = "@a\n']

# A set-up of one call, whose memory is refused too.
ONE_CALL = f"""format = 1\n{SIZES}untyped = [{{ base = 16384, bits = 12 }}]
call = [{{ op = "send", thread = 2048, cap = 4, expect = "waiting" }}]
"""
PIECES = (1, 16)
SECONDS = 600
NOBODY = 65534
INPUT = "standard input"
TOO_LONG = "67108864 bytes or more; a set-up has to be shorter"
READING, WRITING = b"sel4sim: reading failed\n", b"sel4sim: writing failed\n"
MEMORY = (3, b"", b"sel4sim: out of memory\n")
THREAD = (3, b"", b"sel4sim: thread not started\n")
# The calls of a library that take no memory.
WITHOUT_MEMORY = [b"settle: done\n", b"writes: done\n"]
KINDS = ("request", "read", "write", "no byte")
# So many calls of a kind fail in turn, from the first to the last: of the runs of a line from standard input, and of others. A
# program compiled without its proofs takes some three times as long.
IS_SLOW = "SEL4SIM_UNPROVED" in os.environ
MOST, FEW = (12, 4) if IS_SLOW else (10_000, 10_000 if "--each" in sys.argv else 100)
POOL = 4

LIBRARY = r"""
#define _GNU_SOURCE
#include <dlfcn.h>
#include <errno.h>
#include <fcntl.h>
#include <stdlib.h>
#include <string.h>
#include <sys/mman.h>
#include <unistd.h>

/* How many requests for memory there were, reads, and writes of standard output: in a file, if one is named, which has them however
   the program ends. */
static long here[3], *counts = here;

__attribute__((constructor)) static void begin(void)
{
    const char *name = getenv("FAULT_COUNTS");
    int file = name ? open(name, O_RDWR) : -1;
    void *at = file < 0 ? MAP_FAILED : mmap(0, sizeof here, PROT_READ | PROT_WRITE, MAP_SHARED, file, 0);
    if (at != MAP_FAILED)
        counts = at;
}

static long next_of(int place)
{
    return __atomic_add_fetch(&counts[place], 1, __ATOMIC_SEQ_CST);
}

static long number_of(const char *name)
{
    const char *text = getenv(name);
    return text ? atol(text) : 0;
}

/* Whether the call that is counted here is the one that has to fail. */
static int fails(const char *kind, long count)
{
    const char *wanted = getenv("FAULT_KIND"), *mark = getenv("FAULT_MARK");
    if (!wanted || strcmp(wanted, kind) || count != number_of("FAULT_NUMBER"))
        return 0;
    if (mark)
        close(creat(mark, 0600));
    return 1;
}

static int refused(void)
{
    if (!fails("request", next_of(0)))
        return 0;
    errno = ENOMEM;
    return 1;
}

void *malloc(size_t size)
{
    static void *(*next)(size_t);
    if (!next)
        next = dlsym(RTLD_NEXT, "malloc");
    return refused() ? 0 : next(size);
}

void *realloc(void *old, size_t size)
{
    static void *(*next)(void *, size_t);
    if (!next)
        next = dlsym(RTLD_NEXT, "realloc");
    return refused() ? 0 : next(old, size);
}

void *aligned_alloc(size_t alignment, size_t size)
{
    static void *(*next)(size_t, size_t);
    if (!next)
        next = dlsym(RTLD_NEXT, "aligned_alloc");
    return refused() ? 0 : next(alignment, size);
}

int posix_memalign(void **made, size_t alignment, size_t size)
{
    static int (*next)(void **, size_t, size_t);
    if (!next)
        next = dlsym(RTLD_NEXT, "posix_memalign");
    return refused() ? ENOMEM : next(made, alignment, size);
}

static size_t piece_of(size_t size)
{
    long most = number_of("MOST_BYTES");
    return most && size > (size_t)most ? (size_t)most : size;
}

ssize_t read(int file, void *bytes, size_t size)
{
    static ssize_t (*next)(int, void *, size_t);
    if (!next)
        next = dlsym(RTLD_NEXT, "read");
    if (fails("read", next_of(1))) {
        errno = EIO;
        return -1;
    }
    return next(file, bytes, piece_of(size));
}

ssize_t write(int file, const void *bytes, size_t size)
{
    static ssize_t (*next)(int, const void *, size_t);
    if (!next)
        next = dlsym(RTLD_NEXT, "write");
    if (file != 1)
        return next(file, bytes, size);
    long count = next_of(2);
    if (fails("write", count)) {
        errno = EIO;
        return -1;
    }
    return fails("no byte", count) ? 0 : next(file, bytes, piece_of(size));
}
"""


def options_of(program):
    """The options of each command, as its help tells them."""
    return {name: {f"--{it.name}" for it in told.options if it.name not in ("help", None)} for name, _, told in helps(program)[1]}


def known_lines(options):
    """The lines whose command and options the help has."""
    for words, file in LINES:
        command, *rest = words.split()
        strange = [it for it in rest if it.startswith("--") and it not in options.get(command, ())]
        if command in options and not strange:
            yield words, file
        else:
            print(f"left out, since the help has no {' '.join(strange) or command}: {words}")


def without_lines(options, lines):
    """The commands, and the options of commands, that no line has."""
    for command, names in options.items():
        of_it = [words.split() for words, _ in lines if words.split()[0] == command]
        if not of_it:
            yield f"the command {command} has no line in tests/commands.py"
        for name in sorted(names):
            if not any(name in line for line in of_it):
                yield f"{name} of {command} has no line in tests/commands.py"


def answer_of(words, text=b"", changed=()):
    """The status of a run, and what it writes to the two outputs."""
    done = subprocess.run(words, input=text, capture_output=True, timeout=SECONDS, env={**os.environ, **dict(changed)}, check=False)
    return done.returncode, done.stdout, done.stderr


# ---- inputs and outputs that fail


def reading(name, cause):
    """The answer where a file or standard input cannot be read."""
    return 3, b"", READING + f"sel4sim: {name}: {cause}\n".encode()


def writing(cause):
    """The answer where standard output cannot be written."""
    return 3, b"", WRITING + f"sel4sim: standard output: {cause}\n".encode()


class Runs:
    """Runs the program, and counts the answers that are not as wanted."""

    def __init__(self, program):
        self.program, self.count, self.wrong = program, 0, 0

    def run(self, name, words, wanted, **how):
        """Runs the words; without other devices, standard input is empty and the outputs are read."""
        how = {"stdin": subprocess.DEVNULL, "stdout": subprocess.PIPE, "stderr": subprocess.PIPE, **how}
        done = subprocess.run([self.program, *words], timeout=SECONDS, check=False, **how)
        self.note(name, words, (done.returncode, done.stdout or b"", done.stderr or b""), wanted)

    def run_from(self, name, words, writer, wanted):
        """Runs the words with what a program writes without an end as standard input."""
        with subprocess.Popen(writer, stdout=subprocess.PIPE) as source:
            self.run(name, words, wanted, stdin=source.stdout)
            source.stdout.close()
            source.kill()

    def refuse(self, name, words):
        """Runs words that are refused; below the fixed line their fault is told in other words."""
        done = subprocess.run([self.program, *words], timeout=SECONDS, stdin=subprocess.DEVNULL, capture_output=True, check=False)
        answer = (done.returncode, done.stdout, done.stderr.split(b"\n")[0])
        self.note(name, words, answer, (4, b"", b"sel4sim: command line refused"))

    def note(self, name, words, answer, wanted):
        self.count += 1
        if answer != wanted:
            self.wrong += 1
            print(f"{words}: {name}: {answer}, wanted {wanted}")


def files_that_fail(runs, words, folder, behind=()):
    """A file behind the words that cannot be opened or read, with other words behind it."""
    missing, secret = f"{folder}/missing.toml", f"{folder}/secret.toml"
    pathlib.Path(secret).write_text(SET_UP)
    os.chmod(secret, 0)
    below, long = f"{secret}/setup.toml", "a" * 5000
    for name, file, cause in (
        ("no such file", missing, "No such file or directory (os error 2)"),
        ("a path below a file", below, "Not a directory (os error 20)"),
        ("a name of 5,000 bytes", long, "File name too long (os error 36)"),
        ("a folder", folder, "Is a directory (os error 21)"),
    ):
        runs.run(name, [*words, file, *behind], reading(file, cause))
    # Who may read everything starts the program as somebody else.
    other = {"user": NOBODY, "group": NOBODY, "extra_groups": []} if os.geteuid() == 0 else {}
    runs.run("a file that may not be read", [*words, secret, *behind], reading(secret, "Permission denied (os error 13)"), **other)


def inputs_that_fail(runs, words, folder):
    """Each input that cannot be opened, or cannot be read."""
    files_that_fail(runs, words, folder)
    runs.run("an empty name", [*words, ""], reading("''", "No such file or directory (os error 2)"))
    with open(f"{folder}/out", "wb") as unreadable:
        closed = reading(INPUT, "Bad file descriptor (os error 9)")
        runs.run("standard input that is open for writing alone", words, closed, stdin=unreadable)
    runs.run("a closed standard input", words, closed, stdin=None, preexec_fn=lambda: os.close(0))
    opened = os.open(folder, os.O_RDONLY)
    runs.run("a folder as standard input", words, reading(INPUT, "Is a directory (os error 21)"), stdin=opened)
    os.close(opened)


def inputs_without_an_end(runs, words):
    endless = reading(INPUT, TOO_LONG)
    runs.run("a file without an end", [*words, "/dev/zero"], reading("/dev/zero", TOO_LONG))
    with open("/dev/zero", "rb") as zeros:
        runs.run("standard input without an end", words, endless, stdin=zeros)
    runs.run_from("a pipe of zeros without an end", words, ["cat", "/dev/zero"], endless)
    runs.run_from("a pipe of lines without an end", words, ["yes", "format = 1"], endless)
    runs.run_from("a pipe of one line without an end", words, ["sh", "-c", "tr '\\0' '#' < /dev/zero"], endless)
    runs.run_from("a pipe of comments without an end", words, ["yes", "# a line of a text that does not end"], endless)


def outputs_that_fail(runs, words, file):
    """Each output with the words, which write some text."""
    given = {"stdin": open(file, "rb") if file else subprocess.DEVNULL}

    def run(name, cause, **how):
        if file:
            given["stdin"].seek(0)
        runs.run(name, words, writing(cause), **given, **how)

    with open("/dev/full", "wb") as full, open("/dev/null", "rb") as nothing:
        run("a full disk", "No space left on device (os error 28)", stdout=full)
        run("standard output that is open for reading alone", "Bad file descriptor (os error 9)", stdout=nothing)
    end, pipe = os.pipe()
    os.close(end)
    run("a closed pipe", "Broken pipe (os error 32)", stdout=pipe)
    os.close(pipe)
    run("a closed standard output", "Bad file descriptor (os error 9)", stdout=None, preexec_fn=lambda: os.close(1))
    if file:
        given["stdin"].close()


def errors_that_are_not_told(runs, words, folder):
    """A fault whose line cannot be written keeps its status."""
    missing = f"{folder}/missing.toml"
    with open("/dev/full", "wb") as full:
        runs.run("a full disk for errors", [*words, missing], (3, b"", b""), stderr=full)
    runs.run("a closed standard error", [*words, missing], (3, b"", b""), stderr=None, preexec_fn=lambda: os.close(2))


def devices_that_fail(runs, lines, folder):
    """Tries the inputs and outputs of each line."""
    endless = [words for words, file in lines if file and words not in OF_FILES]
    for words, file in lines:
        job = words.split()
        for at, other in enumerate(job):
            if other in FILES and words not in OF_FILES[:1]:
                files_that_fail(runs, job[:at], folder, [*job[at + 1:], *[file] * (file != "")])
        outputs_that_fail(runs, job, file)
        if file:
            outputs_that_fail(runs, [*job, file], "")
        if file and words not in OF_FILES:
            inputs_that_fail(runs, job, folder)
            outputs_that_fail(runs, [*job, "/dev/null"], "")
            errors_that_are_not_told(runs, job, folder)
    # To read what has no end takes a program compiled without its proofs ten seconds: one line is enough.
    for words in endless[:1] if IS_SLOW else endless:
        inputs_without_an_end(runs, words.split())
    outputs_that_fail(runs, ["check", "first.toml", "-"], "first.toml")
    outputs_that_fail(runs, ["--help"], "")
    runs.refuse("a line that is refused", ["--cheque"])
    runs.refuse("a word that is no text", [b"\xff"])


# ---- calls that fail in turn


class Faults:
    """Lets calls of runs fail in turn."""

    def __init__(self, room, compiler):
        self.room, self.library = room, f"{room}/faults.so"
        words = [compiler, "-O1", "-shared", "-fPIC", "-x", "c", "-o", self.library, "-", "-ldl"]
        subprocess.run(words, input=LIBRARY.encode(), check=True)
        self.pool, self.wrong, self.tried = concurrent.futures.ThreadPoolExecutor(POOL), 0, 0

    def counts(self, words, text, piece):
        """How many requests for memory, reads and writes a run has, by their kind."""
        file = pathlib.Path(f"{self.room}/counts")
        file.write_bytes(bytes(24))
        answer_of(words, text, {"LD_PRELOAD": self.library, "MOST_BYTES": str(piece), "FAULT_COUNTS": str(file)})
        requests, reads, writes = struct.unpack("3q", file.read_bytes())
        return dict(zip(KINDS, (requests, reads, writes, writes)))

    def one(self, words, text, piece, kind, number):
        """The answer of a run whose call of this number fails, and whether it came to that call."""
        mark = pathlib.Path(f"{self.room}/mark {kind} {number}")
        changed = {"LD_PRELOAD": self.library, "MOST_BYTES": str(piece)}
        changed |= {"FAULT_KIND": kind, "FAULT_NUMBER": str(number), "FAULT_MARK": str(mark)}
        answer = answer_of(words, text, changed)
        is_met = mark.exists()
        mark.unlink(missing_ok=True)
        return answer, is_met

    def fail(self, words, text, kinds, most=MOST, piece=0):
        """Lets each call of these kinds fail in turn, or so many of them, and tells what came of it."""
        ample, counts = answer_of(words, text), self.counts(words, text, piece)
        said = [self.fail_kind(words, text, ample, kind, (counts[kind], most, piece)) for kind in kinds]
        how = " from standard input" * bool(text) + f", {piece} bytes at a time" * bool(piece)
        print(f"{shlex.join(words[1:]) or 'calls of the libraries'}{how}: {'; '.join(said)}", flush=True)

    def fail_kind(self, words, text, ample, kind, numbers):
        """Lets calls of one kind fail in turn, and returns what there is to tell."""
        count, most, piece = numbers
        wrong, numbers = 0, spread(count, most)
        missing = expected(words, ample) if kind == "request" else []
        # One request is that of the thread of a client; among a few it need not be.
        missing += [THREAD] * (kind == "request" and words[1:2] == ["threads"] and len(numbers) == count)
        answers = self.pool.map(lambda number: self.one(words, text, piece, kind, number), numbers)
        for number, (answer, is_met) in zip(numbers, answers):
            missing = [it for it in missing if it != answer]
            front = (number - 1) * piece if piece and kind in KINDS[2:] else len(answer[1])
            if not (is_right(kind, words, ample, answer) and len(answer[1]) == front if is_met else answer == ample):
                wrong += 1
                print(f"{shlex.join(words[1:])}, {kind} {number}: status {answer[0]}, {answer[1][-200:]!r}, {answer[2]!r}")
        # The calls of the libraries have an answer each, which a few requests alone need not give.
        never = len(missing) if len(words) > 1 or len(numbers) == count else 0
        self.tried, self.wrong = self.tried + len(numbers), self.wrong + wrong + never
        return f"{kind} {len(numbers)} of {count}" + f", {wrong} wrong" * bool(wrong) + f", {never} answers never given" * bool(never)


def spread(count, most):
    """The numbers of the calls: all, or so many of them from the first to the last."""
    return list(range(1, count + 1)) if count <= most else sorted({1 + at * (count - 1) // (most - 1) for at in range(most)})


def expected(words, ample):
    """The answers that have to come where requests for memory are refused, each at least once."""
    if len(words) > 1:
        return [MEMORY]
    lines = ample[1].splitlines(keepends=True)
    calls = [at for at, line in enumerate(lines) if line.endswith(b": done\n") and line not in WITHOUT_MEMORY]
    ended = [line.replace(b": done", b": out of memory, then done") for line in lines]
    return [(ample[0], b"".join([*lines[:at], ended[at], *lines[at + 1:]]), ample[2]) for at in calls]


def words_of(line):
    """A line of standard error without the place that it tells of."""
    return re.sub(rb"^.*?(?=(?:error|warning|note): )", b"", line)


def is_right(kind, words, ample, answer):
    """Whether a run in which a call failed answers as it has to."""
    status, said, fault = answer
    if kind == "read":
        return status == 3 and said == b"" and fault.startswith(READING)
    if kind in ("write", "no byte"):
        return status == 3 and ample[1].startswith(said) and said != ample[1] and fault.startswith(WRITING)
    if answer[:2] == ample[:2]:
        # Lines of standard error may be left out, and the place of one, but for that of a fault.
        lines, told = map(words_of, ample[2].splitlines()), list(map(words_of, fault.splitlines()))
        return all(it in lines for it in told) and (ample[0] not in (3, 4) or told[:1] == ample[2].splitlines()[:1])
    return answer in [*expected(words, ample), *[THREAD] * (words[1:2] == ["threads"])]


def calls_that_fail(faults, lines, program, calls):
    """Lets calls fail in turn in the runs of each line."""
    begun = set()
    for words, file in lines:
        job, text = [program, *words.split()], FILES[file].encode() if file else b""
        kinds = [it for it in KINDS if it != "read" or file and words not in OF_FILES]
        faults.fail(job, text, kinds)
        if file:
            faults.fail([*job, file], b"", kinds[:2], FEW)
        if job[1] not in begun:
            faults.fail(job, text, kinds[1:], FEW, 1)
        begun.add(job[1])
    for piece in PIECES:
        job, text = [program, "check"], STORED.encode()
        reads, wanted = faults.counts(job, text, piece)["read"], -(-len(text) // piece) + 1
        if reads != wanted:
            faults.wrong += 1
            print(f"check, {piece} bytes at a time: {reads} reads, wanted {wanted}")
        faults.fail(job, text, KINDS[1:], MOST, piece)
    for text in (*REFUSED, ONE_CALL):
        faults.fail([program, "check"], text.encode(), KINDS[:1])
    faults.fail([program, "trace"], STORED.encode(), KINDS[:1])
    for words in (["--help"], ["--cheque"]):
        faults.fail([program, *words], b"", KINDS[:1])
    if calls:
        faults.fail([calls], b"", KINDS[:1])


def calls_of(words):
    """The program of crates/test_calls, if it is there."""
    if words and os.path.isfile(words[0]):
        return os.path.abspath(words[0])
    print(f"not tried: refused memory in calls of the libraries: there is no {words[0] if words else 'program of test_calls'}")
    return None


def main():
    program, *words = [it for it in sys.argv[1:] if it != "--each"]
    compiler = next(filter(None, map(shutil.which, ("cc", "gcc", "clang"))), None)
    options = options_of(os.path.abspath(program))
    lines = list(known_lines(options))
    wrong = list(without_lines(options, lines))
    print("\n".join(wrong) or "every command and option has a line")
    calls = calls_of(words)
    with tempfile.TemporaryDirectory() as room:
        os.chmod(room, 0o755)
        # A copy that everybody may start, wherever the program lies.
        runs = Runs(shutil.copy(program, f"{room}/sel4sim"))
        os.chmod(runs.program, 0o755)
        os.chdir(room)
        for name, text in FILES.items():
            pathlib.Path(name).write_text(text, encoding="utf-8")
        devices_that_fail(runs, lines, room)
        print(f"{len(lines)} command lines with inputs and outputs that fail: {runs.count} runs, {runs.wrong} wrong answers")
        failed = len(wrong) + runs.wrong
        if compiler:
            faults = Faults(room, compiler)
            calls_that_fail(faults, lines, runs.program, calls)
            print(f"calls that fail in turn: {faults.tried} runs, {faults.wrong} wrong answers")
            failed += faults.wrong
        else:
            print("not tried: refused memory, and reads and writes that fail in turn: there is no C compiler (cc, gcc or clang)")
    if IS_SLOW:
        print(f"not tried: inputs without an end by more than one command; more than {MOST} calls of a kind that fail in turn")
    return 1 if failed else 0


if __name__ == "__main__":
    sys.exit(main())
