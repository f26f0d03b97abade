#!/usr/bin/env python3
"""Tries the wrong bodies of the crates: each edit of must-fail/ and of wrong-bodies/ has to be refused.

usage, anywhere in the repository:
  tools/wrong_bodies.py [CRATE [NAME..]]        all crates, one crate, or some of its edits by name
  tools/wrong_bodies.py --dry [CRATE [NAME..]]  proves nothing: is each edit's text there, and its clause?
  tools/wrong_bodies.py --named [CRATE..]       those that tools/named-bodies.txt lists, of all its crates or of these
  --jobs N    so many crates side by side (1)
  --room DIR  keeps the copies, with what was proved and what rt said, in DIR

The checkout is not touched: each crate is tried in a copy, over the crates below it, as the gate built them of the very
files that are there, or else as make prove builds them, which is done first. Edits stand in one check only where each is in
functions of its own and none of these calls a function of another edit. Such a check is of these functions alone and of what they
call (`--only`): an edit counts as refused only by a goal of its own functions. Callers are proved against contracts, so such
a goal is false, or no longer proved, because of that edit alone; that it is proved without the edit the same check says
of the crate as it stands, or the gate, where it passed for these files. What has no such error is tried by itself in a check of the
whole crate, by the rule of `rt must-fail`: the crate is refused. CONTRIBUTING.md says more."""
import argparse
import concurrent.futures
import dataclasses
import os
import re
import shutil
import subprocess
import sys
import tempfile

sys.path.insert(0, os.path.join(os.path.dirname(os.path.dirname(os.path.abspath(__file__))), "tools"))

import gate  # noqa: E402
import prove  # noqa: E402
from crates import listed  # noqa: E402

PARTS = ("src", "specs", "proofs")
FOLDERS = ("must-fail", "wrong-bodies")
# What a proof file says where it names what the edit took away: it says nothing of the contract.
GONE = re.compile(r"is not in scope|has no field|was not admitted|is no name|depends on|has no `")
WHY = re.compile(r"why: the (clause|invariant|ghost member)(?: '(\w+)')? of (\w+(?:::\w+)?)(?:: .+)?$")
SIGNATURE = re.compile(r"( *)(?:pub(?:\([a-z]+\))? )?(?:const )?fn (\w+)")


@dataclasses.dataclass(frozen=True)
class Function:
    """A function with a body: its file, its type or "", the trait that it is of or "", its name, its first and last line from 1,
    its text, and the file of its type, or "" where that is its own."""

    file: str
    owner: str
    trait: str
    name: str
    first: int
    last: int
    text: str = dataclasses.field(compare=False, default="")
    home: str = ""

    @property
    def path(self):
        return f"{self.owner}::{self.name}" if self.owner else self.name

    @property
    def module(self):
        """The path of the module by which a check tells of it, that of its type, with the colons behind it."""
        module = re.sub(r"^src/|(/mod)?\.rt$", "", self.home or self.file).replace("/", "::")
        return "" if module in ("lib", "main") else f"{module}::"

    @property
    def checked(self):
        """The name by which a check tells of it."""
        return f"{self.module}{self.owner}{self.trait}::{self.name}" if self.owner else f"{self.module}{self.name}"

    def same_as(self, other):
        return (self.file, self.owner, self.trait, self.name) == (other.file, other.owner, other.trait, other.name)


@dataclasses.dataclass
class Edit:
    """An edit: its file, the kind, clause and function that its first line names, its pairs, and where they stand."""

    path: str
    why: tuple = ()
    pairs: list = dataclasses.field(default_factory=list)
    places: list = dataclasses.field(default_factory=list)
    bad: str = ""

    @property
    def name(self):
        return os.path.basename(self.path).removesuffix(".edit")


def text_of(path):
    with open(path, encoding="utf-8") as file:
        return file.read()


def arguments_of(given, parameters):
    """The types that a trait is given, as a check names them behind it: all but the parameters of the impl."""
    own = re.findall(r"[<,]\s*(\w+)\s*(?=[:,>])", parameters)
    return "".join(it[0].upper() + it[1:] for it in re.findall(r"(?<!')\b\w+", given) if it not in own)


def owner_of(lines, at):
    """The type whose impl a line stands in and its trait, or "", or the trait that it stands in and ""."""
    top = next((k for k in range(at, -1, -1) if re.match(r"impl\b|pub trait|trait|mod ", lines[k])), None)
    head = "" if top is None else " ".join(lines[top : at + 1]).split("{")[0]
    found = re.match(r"impl\b(\s*<.*?>)?\s+(?:[\w:]*::)?(\w+)(?:<([^<>]*)>)?\s+for\s+(?:[\w:]*::)?(\w+)", head)
    if found:
        return found[4], found[2] + arguments_of(found[3] or "", found[1] or "")
    found = re.match(r"impl(?:<.*?>)? (\w+)|(?:pub )?trait (\w+)", head)
    return next((it for it in found.groups() if it), "") if found else "", ""


def end_of(lines, first, indent):
    """The last line of a function's body, or None where the function has none."""
    for n in range(first, len(lines)):
        line = lines[n]
        if line == indent + "{" or line.endswith("{") and not re.match(r" *(requires|ensures) ", line):
            return next((k for k in range(n, len(lines)) if lines[k] == indent + "}"), None)
        if line == indent + "{}" or line.endswith(" {}"):
            return n
        if line.endswith(";"):
            return None
    return None


def functions_of(file, text):
    """The functions of a file that have a body."""
    lines, found = text.split("\n"), []
    for n, line in enumerate(lines):
        at = SIGNATURE.match(line)
        end = end_of(lines, n, at[1]) if at else None
        if end is not None:
            owner, trait = owner_of(lines, n) if at[1] else ("", "")
            found.append(Function(file, owner, trait, at[2], n + 1, end + 1, "\n".join(lines[n : end + 1])))
    return found


def read_edit(path, folder):
    """Reads an edit, and finds the functions that it changes."""
    edit, file, old = Edit(path), "", None
    lines = text_of(path).split("\n")
    edit.why = WHY.match(lines[0]).groups() if WHY.match(lines[0]) else ()
    for line in lines:
        if line.startswith("file: "):
            file = line.removeprefix("file: ").strip()
        elif line.startswith("old: "):
            old = line.removeprefix("old: ")
        elif line.startswith("new:") and old:
            edit.pairs.append((file, old, line.removeprefix("new:").removeprefix(" ")))
            old = None
    if not edit.pairs:
        edit.bad = "it has no pair of lines 'old:' and 'new:'"
    for file, old, _ in edit.pairs:
        edit.bad = edit.bad or place_pair(edit, folder, file, old)
    edit.bad = edit.bad or bad_why(edit, folder)
    return edit


def place_pair(edit, folder, file, old):
    """Adds the function in which the old text stands, or says why it cannot be replaced."""
    if not os.path.isfile(f"{folder}/{file}"):
        return f"there is no file {file}"
    text = text_of(f"{folder}/{file}")
    if text.count(old) != 1:
        return f"its 'old:' text stands {text.count(old)} times in {file}, and not once: {old}"
    line = text[: text.index(old)].count("\n") + 1
    here = [with_home(it, folder) for it in functions_of(file, text) if it.first <= line <= it.last]
    edit.places += [it for it in here or [None] if it not in edit.places]
    return ""


def with_home(function, folder):
    """The function, with the file of its type where that is another one of the crate; of an impl of a trait the file counts."""
    if function.owner and not function.trait:
        declared = re.compile(rf"^(?:pub(?:\([a-z]+\))? )?(?:struct|enum|trait) {function.owner}\b", re.M)
        homes = [os.path.relpath(it, folder) for it in sources(folder) if declared.search(text_of(it))]
        if homes and function.file not in homes:
            return dataclasses.replace(function, home=homes[0])
    return function


def bad_why(edit, folder):
    """Says whether the first line names what is not there."""
    if not edit.why:
        return "its first line is not: why: the clause 'NAME' of FUNCTION: SENTENCE"
    kind, clause, path = edit.why
    name = path.split("::")[-1]
    here = "\n".join(text_of(it) for it in sources(folder))
    if not re.search(rf"\b(fn|struct|enum|trait) {name}\b", here):
        return f"its first line names {path}, which is not in the crate"
    if not clause:
        return ""
    wanted = re.compile(rf"fn {name}\b(?:(?!\n *\{{|\n *fn |;\n\n).)*?ensures {clause} \{{", re.S)
    below = os.path.dirname(folder)
    others = (it for crate in crates_of(below) for it in sources(f"{below}/{crate}"))
    if kind == "clause" and not wanted.search(here) and not any(wanted.search(text_of(it)) for it in others):
        return f"its first line names the clause '{clause}' of {path}, which has none of that name"
    return ""


def crates_of(folder):
    return sorted(it for it in os.listdir(folder) if os.path.isdir(f"{folder}/{it}/src"))


def sources(folder):
    found = [f"{at}/{name}" for at, _, names in os.walk(f"{folder}/src") for name in sorted(names)]
    return [it for it in found if it.endswith(".rt")]


def edits_of(folder, names):
    """The edits of a crate, those of one function next to one another."""
    paths = [f"{folder}/{kind}/{it}" for kind in FOLDERS if os.path.isdir(f"{folder}/{kind}")
             for it in sorted(os.listdir(f"{folder}/{kind}")) if it.endswith(".edit")]
    edits = [read_edit(it, folder) for it in paths]
    return [it for it in edits if not names or it.name in names]


def calls(function, other):
    """Whether a function's body may call another one, by its name; so also where it only has that name as a value."""
    body = function.text.replace(f"fn {function.name}", "", 1)
    return re.search(rf"\b{other.name}(?:\(|::<)|[(,] *(?:\w+::)*{other.name} *[,)]", body)


def functions_of_all(edits):
    """The names of the functions that edits change, as a check tells of them."""
    return tuple(dict.fromkeys(place.checked for edit in edits for place in edit.places))


def can_stand_together(edit, other):
    """Whether no function of the one is, or calls, a function of the other."""
    return not any(a.same_as(b) or calls(a, b) or calls(b, a) for a in edit.places for b in other.places)


def groups_of(edits):
    """Groups of edits for one check each, and those that have to be tried alone, since they change what is no function."""
    groups, alone = [], []
    for edit in edits:
        if None in edit.places:
            alone.append(edit)
            continue
        group = next((g for g in groups if all(can_stand_together(edit, it) for it in g)), None)
        groups.append([edit]) if group is None else group.append(edit)
    return groups, alone


def make_room(root, crate, room):
    """Copies a crate's files, and gives the copy's folder."""
    for part in PARTS:
        source, target = f"{root}/crates/{crate}/{part}", f"{room}/{part}"
        shutil.rmtree(target, ignore_errors=True)
        if os.path.isdir(source):
            shutil.copytree(source, target)
    os.makedirs(f"{room}/out", exist_ok=True)
    return room


@dataclasses.dataclass
class Tried:
    """A crate, its copy, and where the libraries below it are; and what came of it: how many edits were refused where, what they
    cost, and what is wrong."""

    crate: str
    folder: str = ""
    library: object = None
    counts: dict = dataclasses.field(default_factory=dict)
    wrong: list = dataclasses.field(default_factory=list)
    seconds: float = 0.0
    checks: int = 0


@dataclasses.dataclass
class Ran:
    """What one check said, with its status."""

    status: int
    lines: list


def check(tried, edits, only=()):
    """Checks the copy with these edits, or some functions of it alone, and puts its files back."""
    folder = tried.folder
    kept = {file: text_of(f"{folder}/{file}") for edit in edits for file, _, _ in edit.pairs}
    texts = dict(kept)
    for edit in edits:
        for file, old, new in edit.pairs:
            texts[file] = texts[file].replace(old, new)
    write_all(folder, texts)
    try:
        ran = ran_by(tried, only)
        if ran.status < 0:
            # It was killed, most likely for memory: once more.
            ran = ran_by(tried, only)
    finally:
        write_all(folder, kept)
    write_all(folder, {f"said-{edits[0].name if edits else 'without_edits'}.txt": "\n".join(ran.lines) + "\n"})
    return ran


def ran_by(tried, only):
    """Runs a check, and adds the processor seconds that it took with all that it started."""
    how = {"stdin": subprocess.DEVNULL, "stdout": subprocess.PIPE, "stderr": subprocess.STDOUT, "encoding": "utf-8"}
    words = [prove.rattle(), "check", *prove.crate_of(tried.crate).words(1, tried.library), "--incremental", "out"]
    words += [f"--only={it}" for it in only]
    ran = subprocess.Popen(words, cwd=tried.folder, errors="replace", **how)
    said = ran.stdout.read()
    ran.stdout.close()
    _, status, used = os.wait4(ran.pid, 0)
    ran.returncode = os.waitstatus_to_exitcode(status)
    tried.seconds, tried.checks = tried.seconds + used.ru_utime + used.ru_stime, tried.checks + 1
    return Ran(ran.returncode, said.rstrip("\n").split("\n"))


def write_all(folder, texts):
    for file, text in texts.items():
        with open(f"{folder}/{file}", "w", encoding="utf-8") as out:
            out.write(text)


def goals_of(ran, crate):
    """The goals that are open, or that an answer does not meet, by the path of their function, or by its file and a
    line in it. A function that waits for one that it calls has none."""
    goals = {}
    for line in ran.lines:
        at = re.match(rf"fn {crate}::(\S+): no proof: expected answers in \S+; `search` did not prove (.*)", line)
        if at:
            goals.setdefault(at[1], []).extend(re.findall(r"`([^`]+)`", at[2]))
        at = re.match(r"note: (?:\./)?(src/\S+?):(\d+):\d+: .*\(`([^`]+)`\)", line)
        if at:
            goals.setdefault((at[1], int(at[2])), []).append(at[3])
        at = re.match(r"(?:\./)?proofs/(\S+)/Answers\.antt:\d+:\d+: error: `([^`]+)`: (.*)", line)
        if at and not GONE.search(at[3]):
            goals.setdefault(at[1].replace("/", "::"), []).append(at[2])
    return goals


def is_of(place, function):
    """Whether a path that rt prints is that of a function, or of a closure in it, or a line is one of its lines."""
    if isinstance(place, tuple):
        return place[0] == function.file and function.first <= place[1] <= function.last
    prefix = function.module
    owner = rf"{function.owner}[^:]*::" if function.owner else ""
    closure = rf"(?:{owner})?fn::(?:{owner})?{function.name}(?:::.*)?"
    return re.fullmatch(rf"{prefix}(?:{owner}{function.name}|{closure})", place)


def own_goals(edit, goals):
    """The goals that failed in the edit's own functions, first those of the function that its first line names."""
    places = [it for it in edit.places if it is not None]
    named = edit.why[2] if edit.why else ""
    places.sort(key=lambda it: it.path != named and it.name != named)
    return [*dict.fromkeys(goal for place in places for at in goals if is_of(at, place) for goal in goals[at])]


def named_goals(edit, goals):
    """The goals that failed in the function that the first line names, as the law that holds a constant."""
    name = edit.why[2].split("::")[-1]
    paths = [it for it in goals if isinstance(it, str) and it.split("::")[-1] == name]
    return [*dict.fromkeys(goal for path in paths for goal in goals[path])]


def told_of(edit, goals):
    """Where an edit is refused, beside what its first line names."""
    kind, clause, _ = edit.why
    mine = [it for it in goals if "-requires" not in it]
    whole = [it for it in mine if it.startswith("returns") and "clause-" not in it]
    if kind == "invariant":
        found = [it for it in mine if it.startswith("invariant_of")]
    elif kind == "ghost member":
        found = [it for it in mine if it.startswith("returns")]
    elif clause:
        found = [it for it in mine if re.search(rf"clause-{clause}(?:-|$)", it)]
    else:
        found = whole
    if found:
        return "at what it names", found
    if clause and whole:
        return "at all clauses, which are proved together", whole
    loops = [it for it in mine if it.startswith("loop")]
    return ("at a loop's invariant", loops) if loops else ("elsewhere", goals)


def said(crate, edit, where, goals):
    shown = ", ".join(goals[:4]) + (", .." if len(goals) > 4 else "")
    print(f"{crate}/{edit.name}: refused {where}{f' ({shown})' if shown else ''}", flush=True)
    return where


def try_group(tried, group):
    """Tries edits in one check of their functions, and gives where each was refused; none where it has no goal of its own."""
    ran = check(tried, group, functions_of_all(group))
    goals = goals_of(ran, tried.crate)
    found = {}
    for edit in group:
        mine = own_goals(edit, goals) if ran.status == 1 else []
        if mine:
            found[edit.name] = said(tried.crate, edit, *told_of(edit, mine))
    return found


def try_alone(tried, edit):
    """Tries one edit by the rule of the gate: the prover reads it, and does not prove the crate."""
    ran, crate = check(tried, [edit]), tried.crate
    label = f"{crate}/{edit.name}"
    if ran.status == 0:
        print(f"{label}: NOT REFUSED: the crate is still proved with it", flush=True)
        return "NOT REFUSED"
    unread = next((it for it in ran.lines if re.match(r"(?:\./)?src/\S+:\d+:\d+: error", it)), "")
    if ran.status != 1 or not any(it.startswith("logic=not-proved") for it in ran.lines) or unread:
        print(f"{label}: BAD EDIT: it did not reach the prover: {(unread or ran.lines[0])[:160]}", flush=True)
        return "BAD EDIT"
    goals = goals_of(ran, crate)
    mine = own_goals(edit, goals) or named_goals(edit, goals)
    if mine:
        return said(crate, edit, *told_of(edit, mine))
    others = [f"{at}: {it}" for at in goals if isinstance(at, str) for it in goals[at]] + not_admitted(ran)
    if others:
        return said(crate, edit, "at another function", others)
    return said(crate, edit, "by names alone, which says little of the contract", [])


def not_admitted(ran):
    """What is no function and is refused, as a constant's or a trait's promise."""
    errors = [it for it in ran.lines if re.match(r"(?:\./)?(?:specs|proofs)/\S+:\d+:\d+: error", it)]
    return [it[:120] for it in errors if not GONE.search(it)]


def try_crate(root, crate, names, rooms, is_proved):
    """Tries the edits of a crate in a copy. Where the gate passed, the crate is proved, and one group of edits needs no check of the
    crate without them."""
    tried = Tried(crate, library=gate.library if is_proved else None)
    edits = edits_of(f"{root}/crates/{crate}", names)
    tried.wrong += [f"{crate}/{it.name}: BAD EDIT: {it.bad}" for it in edits if it.bad]
    edits = [it for it in edits if not it.bad]
    tried.folder = make_room(root, crate, f"{rooms}/{crate}")
    groups, alone = groups_of(edits)
    only = () if alone else functions_of_all(edits)
    if (not is_proved or alone or len(groups) > 1) and check(tried, [], only).status != 0:
        tried.wrong.append(f"{crate}: not tried, since it is not proved itself")
        return tried
    for name, where in refusals(tried, groups, alone).items():
        tried.counts[where] = tried.counts.get(where, 0) + 1
        if where.isupper():
            tried.wrong.append(f"{crate}/{name}: {where}")
    return tried


def refusals(tried, groups, alone):
    """Where each edit was refused, in as few checks as can tell."""
    found = {}
    for group in groups:
        found |= try_group(tried, group)
        alone = [*alone, *(it for it in group if it.name not in found)]
    return found | {it.name: try_alone(tried, it) for it in alone}


def dry(root, names, is_named):
    """Says of each edit that cannot be applied, or whose first line names what is not there."""
    edits = [(crate, it) for crate in names for it in edits_of(f"{root}/crates/{crate}", names[crate])]
    bad = [f"{crate}/{it.name}: BAD EDIT: {it.bad}" for crate, it in edits if it.bad]
    bad += lacking(names, len(edits)) if is_named else []
    print("\n".join([*bad, f"{len(edits)} edits, {len(bad)} of them bad"]))
    return 1 if bad else 0


def tell(tried):
    counts = "; ".join(f"{n} {where}" for where, n in sorted(tried.counts.items()))
    cost = f"{tried.checks} checks, {tried.seconds:.0f} processor s"
    print(f"== {tried.crate}: {sum(tried.counts.values())} edits: {counts}; {cost}", flush=True)


def root_above():
    folder = os.path.dirname(os.path.dirname(os.path.abspath(__file__)))
    if not os.path.isfile(f"{folder}/crates.txt"):
        sys.exit(f"{folder} has no crates.txt: the script stands in tools/ of the repository")
    return folder


def named_bodies(root):
    """The crates that named-bodies.txt lists, with the names of edits."""
    found = {}
    for line in text_of(f"{root}/tools/named-bodies.txt").splitlines():
        if line and not line.startswith("#"):
            found.setdefault(line.split()[0], []).extend(line.split()[1:])
    return found


def chosen(root, crate):
    """The crates to be tried, in the order of crates.txt."""
    names = list(listed())
    if crate and crate not in names:
        sys.exit(f"there is no crate {crate} in crates.txt")
    has_edits = lambda it: any(os.path.isdir(f"{root}/crates/{it}/{kind}") for kind in FOLDERS)
    return [it for it in names if (it == crate if crate else has_edits(it))]


def asked_for(root, asked):
    """The names of the edits to be tried, by their crates in the order of crates.txt; of a crate without names all."""
    if not asked.named:
        return dict.fromkeys(chosen(root, asked.crate), asked.names)
    wanted, found = [asked.crate, *asked.names] if asked.crate else [], named_bodies(root)
    for it in wanted:
        if it not in found:
            sys.exit(f"tools/named-bodies.txt has no crate {it}")
    return {it: found[it] for it in listed() if it in found and (it in wanted or not wanted)}


def main():
    parser = argparse.ArgumentParser(description="Tries the wrong bodies of the crates, in copies.")
    parser.add_argument("crate", nargs="?", default="", help="one crate; else all")
    parser.add_argument("names", nargs="*", help="some edits of it by name; else all; with --named, more crates")
    parser.add_argument("--named", action="store_true", help="those that tools/named-bodies.txt lists")
    parser.add_argument("--dry", action="store_true", help="only look whether each edit can be applied")
    parser.add_argument("--jobs", type=int, default=1, help="crates side by side")
    parser.add_argument("--room", help="a folder for the copies, which is kept")
    asked, root = parser.parse_args(), root_above()
    names = asked_for(root, asked)
    if asked.dry:
        return dry(root, names, asked.named)
    rooms = asked.room or tempfile.mkdtemp(prefix="wrong-bodies-")
    try:
        return try_all(root, names, asked, os.path.abspath(rooms))
    finally:
        if not asked.room:
            shutil.rmtree(rooms, ignore_errors=True)


def try_all(root, names, asked, rooms):
    """Builds what the crates stand on, where the gate did not, tries their edits, so many crates side by side as asked for, and
    tells what came of it."""
    is_proved = gate.has_libraries({it for crate in names for it in prove.names_below(crate)})
    for crate in names:
        if not is_proved and prove.built(crate, with_goal=False):
            sys.exit(f"{crate}: not tried, since a crate that it stands on is not proved")
    places = min(asked.jobs, prove.free_memory() // prove.BYTES_A_JOB)
    with concurrent.futures.ThreadPoolExecutor(max(1, places)) as pool:
        all_tried = [*pool.map(lambda it: tried_and_told(root, it, names[it], rooms, is_proved), names)]
    wrong = [line for it in all_tried for line in it.wrong]
    tried = sum(sum(it.counts.values()) for it in all_tried)
    wrong += lacking(names, tried) if asked.named else []
    seconds = sum(it.seconds for it in all_tried)
    print("\n".join(wrong))
    print(f"{tried} wrong bodies tried, {len(wrong)} not refused or bad; {seconds:.0f} processor s")
    return 1 if wrong else 0


def lacking(names, found):
    """Says where fewer edits were found than are named."""
    wanted = sum(map(len, names.values()))
    return [f"{wanted - found} of the named bodies are not there or were not tried"] * (wanted != found)


def tried_and_told(root, crate, names, rooms, is_proved):
    tried = try_crate(root, crate, names, rooms, is_proved)
    tell(tried)
    return tried


if __name__ == "__main__":
    sys.exit(main())
