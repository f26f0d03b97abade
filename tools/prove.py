#!/usr/bin/env python3
"""prove.py [CRATE]: proves and builds the crates that a crate stands on, several side by side, and then the crate, which
is sel4sim where none is named. A program is run on standard input.

Each crate is built by the toolchain's `rattle build`, once the crates below it are. A library is written with its
statements and without its proofs (--statements), as in the gate: a crate above loads a fifth of the modules then. Of
the crates that can begin, the one with the most work above it begins first; seconds.txt has what each costs. As many
functions are proved at a time as `make -j N` is told, or as there are processors, and as memory allows: one of each
crate, or more where fewer crates can begin than there are processors.

What is built stays in tools/out, with a sum of what it was made from, so that after an interrupt the build goes on with
the crates that are not built. `rt` keeps its own work in the crates' folders, and takes nothing from tools/out."""
import contextlib
import fcntl
import hashlib
import os
import re
import shutil
import signal
import subprocess
import sys
import time

from crates import TOP, in_order, kit, listed, toolchain, uses_of

NAME = "sel4sim"
PARTS = ("src", "specs", "proofs")
OUT = os.path.join(TOP, "tools", "out")
TARGET = "x86_64-unknown-linux-gnu"
BYTES_A_JOB = 3 << 30
LINES_SHOWN = 30


def places_told(flags):
    """Returns N of `make -j N`, or the number of processors."""
    told = re.search(r"(?:^|\s)-j(\d+)", flags.split(" -- ")[0])
    return int(told[1]) if told else len(os.sched_getaffinity(0))


def free_memory():
    """Returns the bytes that are free, here and in the control group."""
    with open("/proc/meminfo", encoding="utf-8") as file:
        free = [1024 * int(re.search(r"MemAvailable:\s+(\d+)", file.read())[1])]
    group = "/sys/fs/cgroup/memory"
    with contextlib.suppress(OSError, ValueError, TypeError):
        with open(f"{group}.max", encoding="utf-8") as limit, open(f"{group}.stat", encoding="utf-8") as held:
            free.append(int(limit.read()) - int(re.search(r"anon (\d+)", held.read())[1]))
    return min(free)


def rattle():
    return os.path.join(kit(), "bin", "rattle")


COSTS = os.path.join(TOP, "tools", "seconds.txt")


def costs():
    """Returns what each crate costs, in processor seconds."""
    with open(COSTS, encoding="utf-8") as file:
        rows = [line.split("#")[0].split() for line in file]
    return {row[0]: int(row[1]) for row in rows if row}


def write_costs():
    """Writes what each crate took where it was built here, and else what it cost before."""
    known = costs()
    for name in listed():
        with contextlib.suppress(FileNotFoundError), open(os.path.join(OUT, f"{name}.seconds"), encoding="utf-8") as file:
            known[name] = max(1, round(float(file.read())))
    with open(COSTS, encoding="utf-8") as file:
        head = [line for line in file if line.startswith("#")]
    with open(COSTS, "w", encoding="utf-8") as file:
        file.writelines([*head, *(f"{name} {known[name]}\n" for name in listed() if name in known)])


def ended(tool):
    """Returns the processor seconds that a command took, and notes its status, where it has ended; else None."""
    number, status, used = os.wait4(tool.pid, os.WNOHANG)
    if not number:
        return None
    tool.returncode = os.waitstatus_to_exitcode(status)
    return used.ru_utime + used.ru_stime


def files_of(folder):
    for part in PARTS:
        for at, folders, names in os.walk(os.path.join(folder, part)):
            folders.sort()
            yield from (os.path.join(at, name) for name in sorted(names))


class Crate:
    """A crate, what it is built to, and the command that builds it."""

    def __init__(self, name, line, below):
        self.name, self.line, self.below = name, line, below
        self.folder = os.path.join(TOP, "crates", name)
        self.is_program = os.path.isfile(os.path.join(self.folder, "src", "main.rt"))
        self.is_static = "staticlib" in line.partition(":")[0].split()
        self.log = os.path.join(OUT, f"{name}.log")
        self.noted = os.path.join(OUT, f"{name}.stamp")
        self.files = ""

    @property
    def made(self):
        """The program, the static library, or the folder of the library for the crates above it."""
        if self.is_program or self.is_static:
            return os.path.join(self.folder, "out", f"lib{self.name}.a" if self.is_static else self.name)
        return os.path.join(OUT, f"{self.name}.rlib")

    def words(self, jobs, library=None):
        """Returns what `rattle check` and `rattle build` have to know of the crate. The libraries below it are in tools/out, or
        where `library` says."""
        folder, libraries = kit(), os.path.join(kit(), "rlibs")
        library = library or (lambda it: os.path.join(OUT, f"{it}.rlib"))
        words = ["--crate-name", self.name, os.path.join("src", "main.rt" if self.is_program else "lib.rt")]
        for it in ("std", *uses_of(self.line)):
            words += ["--extern", f"{it}={library(it) if it in self.below else os.path.join(libraries, it + '.rlib')}"]
        for it in dict.fromkeys([libraries, *(os.path.dirname(library(name)) for name in names_below(self.name))]):
            words += ["-L", f"dependency={it}"]
        words += ["--links", f"{self.name}="]
        words += ["--antt-project", os.path.join(folder, "rattle", "logic", "antt-project.json")]
        words += ["--logic-built", os.path.join(folder, "logic_built"), "--jobs", str(jobs)]
        return words + ["--crate-type", "staticlib"] * self.is_static

    def command(self, jobs, to=None, compiler=None):
        """Returns the words of the command. Its last step, of a program, is the clang of the toolchain in `compiler`."""
        words = [rattle(), "build", *self.words(jobs)]
        if self.is_program or self.is_static:
            words += ["--backend", "llvm", "--toolchain", compiler or os.path.join(kit(), "toolchain")]
        else:
            words += ["--statements"]
        return [*words, "-o", to or (self.object() if self.is_program else self.made)]

    def object(self):
        return os.path.join(OUT, f"{self.name}.o")

    def link(self):
        """Links a program. Returns the status."""
        folder = kit()
        words = [os.path.join(folder, "bin", "rattle-link"), "--target", TARGET]
        words += ["--toolchain", os.path.join(folder, "toolchain"), "-o", self.made, self.object()]
        words += [os.path.join(folder, "c", it) for it in ("libos_c.a", "liblibc_c.a")]
        with open(self.log, "ab") as log:
            return subprocess.run(words, stdin=subprocess.DEVNULL, stdout=log, stderr=log, check=False).returncode

    def start(self, jobs, sums, lock):
        """Starts the command. It holds the lock too, so that another build waits for it where this script is killed."""
        with contextlib.suppress(FileNotFoundError):
            os.remove(self.noted)
        # Taken before the command reads the files, so that what is edited meanwhile is built again by the next run.
        self.files = self.sum_of_files(sums)
        os.makedirs(os.path.dirname(self.made), exist_ok=True)
        with open(self.log, "wb") as log:
            how = {"stdin": subprocess.DEVNULL, "stdout": log, "stderr": log, "start_new_session": True}
            return subprocess.Popen(self.command(jobs), cwd=self.folder, pass_fds=(lock,), **how)

    def sum_of_files(self, sums):
        """Returns a sum of what the crate is built from: its files, the crates below as they are built, the toolchain."""
        total = hashlib.sha256(repr((toolchain(), self.line, [sums[it] for it in self.below])).encode())
        for path in files_of(self.folder):
            with open(path, "rb") as file:
                total.update(repr((os.path.relpath(path, self.folder), file.read())).encode())
        return total.hexdigest()

    def sum_of_made(self):
        """Returns a sum of what was built: of a library, of its file `format`, which has the sum of the others."""
        is_file = self.is_program or self.is_static
        with open(self.made if is_file else os.path.join(self.made, "format"), "rb") as file:
            return hashlib.sha256(file.read()).hexdigest()

    def is_made(self):
        """Returns whether what was built is there as it was built, whatever the files are now."""
        with contextlib.suppress(FileNotFoundError), open(self.noted, encoding="utf-8") as file:
            return file.read().split()[1:] == [self.sum_of_made()]
        return False

    def is_built_from(self, sums):
        with contextlib.suppress(FileNotFoundError), open(self.noted, encoding="utf-8") as file:
            return file.read().split() == [self.sum_of_files(sums), self.sum_of_made()]
        return False

    def note_built(self, seconds):
        with open(os.path.join(OUT, f"{self.name}.seconds"), "w", encoding="utf-8") as file:
            file.write(f"{seconds:.1f}")
        with open(self.noted, "w", encoding="utf-8") as file:
            file.write(f"{self.files} {self.sum_of_made()}")


def crate_of(name):
    below, line = listed()[name]
    return Crate(name, line, below)


def names_below(name):
    """Returns the crates that one stands on, each after those that it names."""
    return in_order(name, {it: below for it, (below, _) in listed().items()})[:-1]


class Build:
    """The crates that one stands on, and itself where that is asked for, and how far they are."""

    def __init__(self, goal, with_goal, places, lock):
        uses = {name: below for name, (below, _) in listed().items()}
        names = in_order(goal, uses)
        self.names = names if with_goal else names[:-1]
        self.crates = {it: crate_of(it) for it in self.names}
        self.places, self.lock, self.done, self.running, self.sums = places, lock, [], {}, {}
        known, self.ahead = costs(), {}
        self.costs, self.known, self.took = {it: known.get(it, 30) for it in self.names}, 0, 0
        for it in reversed(self.names):
            above = [self.ahead[name] for name in self.names if name in self.ahead and it in uses[name]]
            self.ahead[it] = self.costs[it] + max(above, default=0)
        self.waiting = sorted(self.names, key=lambda it: -self.ahead[it])

    def is_ready(self, name):
        return all(it in self.done for it in self.crates[name].below)

    def end(self, name):
        self.sums[name] = self.crates[name].sum_of_made()
        self.done.append(name)

    def takes_built(self, name):
        """Takes a crate if it is built from its files and from the crates below as they are, and returns whether it is."""
        is_built = self.crates[name].is_built_from(self.sums)
        if is_built:
            self.waiting.remove(name)
            self.end(name)
        return is_built

    def skip_built(self):
        """Takes what is built already, and returns how many crates that is."""
        return sum(self.is_ready(name) and self.takes_built(name) for name in self.names)

    def start_some(self):
        """Starts crates that can begin, and shares the places that are free among them: each has one function at a time at
        the least."""
        ready = [it for it in self.waiting if self.is_ready(it)]
        for at, name in enumerate(ready):
            idle = self.places - sum(jobs for _, jobs, _ in self.running.values())
            if idle < 1 or (self.running and free_memory() < BYTES_A_JOB):
                return
            if not self.takes_built(name):
                self.waiting.remove(name)
                jobs = max(1, idle // (len(ready) - at))
                self.running[name] = self.crates[name].start(jobs, self.sums, self.lock), jobs, time.time()

    def take_ended(self):
        """Takes the crates whose command has ended, and returns the name and status of one that failed, if any did."""
        for name, (tool, jobs, since) in list(self.running.items()):
            seconds, passed = ended(tool), time.time() - since
            if seconds is None:
                continue
            del self.running[name]
            crate = self.crates[name]
            status = tool.returncode or (crate.link() if crate.is_program else 0)
            if status:
                return name, status
            crate.note_built(seconds)
            self.end(name)
            self.known, self.took = self.known + self.costs[name], self.took + jobs * passed
            tell_plainly(f"{len(self.done)}/{len(self.names)} {name} {passed:.0f} s{self.left()}")
        return None

    def left(self):
        """Tells about how long the rest takes, by seconds.txt and by what this run took beside it: no less than the longest
        chain."""
        rest = [it for it in self.names if it not in self.done]
        seconds = max(sum(self.costs[it] for it in rest) / self.places, max((self.ahead[it] for it in rest), default=0))
        return f", about {seconds * self.took / self.known / 60:.0f} minutes left" if rest else ""

    def end_all(self):
        for tool, _, _ in self.running.values():
            with contextlib.suppress(ProcessLookupError):
                os.killpg(tool.pid, signal.SIGKILL)
            tool.wait()
        self.running = {}

    def build(self):
        """Builds what is not built, and returns the status of the first crate that failed, or 0. Behind a failure no other
        crate begins, but those that have begun are built to their end."""
        status = 0
        try:
            while self.running or (self.waiting and not status):
                if not status:
                    self.start_some()
                failed = self.take_ended()
                if failed:
                    tell_failure(*failed, self.crates[failed[0]].log)
                    status = status or (failed[1] if failed[1] > 0 else 128 - failed[1])
                    if self.running:
                        tell("waiting for", ", ".join(self.running))
                time.sleep(0.1)
        finally:
            self.end_all()
        return status


@contextlib.contextmanager
def locked():
    """Keeps other builds out of tools/out, and gives the lock."""
    os.makedirs(OUT, exist_ok=True)
    with open(os.path.join(OUT, "lock"), "w", encoding="utf-8") as file:
        try:
            fcntl.flock(file, fcntl.LOCK_EX | fcntl.LOCK_NB)
        except BlockingIOError:
            tell("waiting for another build of this repository")
            fcntl.flock(file, fcntl.LOCK_EX)
        yield file.fileno()


def tell_plainly(*words):
    print(*words, file=sys.stderr, flush=True)


def tell(*words):
    tell_plainly("build:", *words)


def tell_failure(name, status, log):
    with open(log, encoding="utf-8", errors="replace") as file:
        lines = file.read().splitlines()
    print(*lines[-LINES_SHOWN:], sep="\n", file=sys.stderr)
    if status in (-9, 137, 247):
        tell("it was killed, most likely for memory: try make -j1 prove")
    tell(f"{name} failed with status {status}; the lines above are the last of {log}")


def built(goal=NAME, with_goal=True):
    """Proves and builds a crate and what it stands on, or what it stands on alone. Returns the status."""
    if not shutil.which("rt"):
        tell("there is no command rt on the path: it needs the Rattle toolchain")
        return 2
    begun, told = time.time(), places_told(os.environ.get("MAKEFLAGS", ""))
    places = max(1, min(told, free_memory() // BYTES_A_JOB))
    with locked() as lock:
        build = Build(goal, with_goal, places, lock)
        kept = build.skip_built()
        if not build.waiting:
            return 0
        tell(f"{kept} of {len(build.names)} crates are built; {places} functions at a time")
        status = build.build()
    if not status:
        tell(f"proved, in {time.time() - begun:.0f} s")
    return status


def is_built(name=NAME):
    """Returns whether a crate is built from the files that are there, and so are the crates that it stands on."""
    build = Build(name, True, 1, None)
    build.skip_built()
    return not build.waiting


def main(words):
    """Proves and builds a crate, and runs a program on standard input. Returns the first status that is not 0."""
    if words == ["--costs"]:
        return write_costs()
    name = words[0] if words else NAME
    if name not in listed():
        tell(f"crates.txt has no crate {name}")
        return 2
    crate, status = crate_of(name), built(name)
    if status or not crate.is_program:
        return status
    tell(f"the program is {os.path.relpath(crate.made, TOP)}")
    return subprocess.run([crate.made], check=False).returncode


def interrupted(number, _):
    raise KeyboardInterrupt(number)


def status_of(work, stopped="stopped; make prove goes on from here"):
    """Does the work and returns its status, also where it is told to stop; this is said then."""
    for it in (signal.SIGTERM, signal.SIGHUP):
        signal.signal(it, interrupted)
    try:
        return work()
    except KeyboardInterrupt:
        tell(stopped)
        return 130


if __name__ == "__main__":
    sys.exit(status_of(lambda: main(sys.argv[1:])))
