#!/usr/bin/env python3
"""documents.py FOLDER PAGE..: runs what the pages print, with the program in FOLDER, and compares what it writes.

A page's blocks are taken in order, in a folder of the page's own that has `crates` and `examples` in it:

- ```toml NAME, ```capdl NAME
                    is written to the file NAME; with the word `more` behind the name it is added to its end;
- ```console        has commands, each behind `$ `, and below each what it writes: standard output alone, or with
                    standard error as a terminal shows both;
- ```report         stands in what the last command wrote, behind the reports that came before;
- ```sh             builds or proves: it is not run, and each `make` has to name a target of the Makefile; with a name
                    behind it, it is written to the file of that name;
- ```rust FILE      stands in that file, line for line, and so does ```antt FILE;
- ```text           is not run.

A line of three dots stands for any lines. A block of another kind is a fault, so that none is forgotten. Each link to a file
of the repository has to lead to one, and to a heading where it names one. No line of prose, and none of README, is longer than 120 columns,
and no cell of a table has more than 60 words, but for what a tool makes. The newest version of a change log is the one that the program prints.
In the end it says how many words are written by hand.
"""
import os
import pathlib
import re
import subprocess
import sys
import tempfile

MOST_COLUMNS, MOST_WORDS = 120, 60
MADE = re.compile(r"<!-- (?:crates|options of|statuses|figures:).*?<!-- (?:to here|end of the figures) -->", re.S)
VERSION = re.compile(r"^## (\d{4}-\d\d-\d\d)$", re.M)
ROOT = pathlib.Path(__file__).resolve().parent.parent
ANY_LINES = r"(?:.*\n)*?"


def blocks(page):
    """The number of a block's first line, the words behind its fence, and its lines."""
    start = None
    for number, line in enumerate(page.read_text().splitlines(), 1):
        if start is None and line.startswith("```"):
            start, words, lines = number, line[3:].split(), []
        elif line.startswith("```"):
            yield start, words, lines
            start = None
        elif start is not None:
            lines.append(line)


def pattern(lines):
    """What matches these lines, where three dots stand for any lines."""
    return "".join(ANY_LINES if line == "..." else re.escape(line) + r"\n" for line in lines)


def commands(lines):
    """Each command with the lines that it is to write."""
    found = []
    for line in lines:
        if line.startswith("$ "):
            found.append((line[2:], []))
        elif found:
            found[-1][1].append(line)
    return found or [("false", [f"no command in {lines}"])]


class Runner:
    """Takes the blocks of one page; each kind of block has a method that yields what is wrong."""

    def __init__(self, folder, program):
        self.folder, self.written = folder, ""
        self.environment = {**os.environ, "PATH": f"{program}:{os.environ['PATH']}"}

    def toml(self, words, lines):
        with open(self.folder / words[0], "a" if words[1:] == ["more"] else "w") as file:
            file.writelines(f"{line}\n" for line in lines)
        return []

    capdl = toml

    def run(self, command, errors):
        """What a command writes to standard output, where standard error goes there too or to nothing."""
        return subprocess.run(["sh", "-c", command], cwd=self.folder, env=self.environment, timeout=600, text=True,
                              stdin=subprocess.DEVNULL, stdout=subprocess.PIPE, stderr=errors).stdout

    def console(self, _, lines):
        for command, wanted in commands(lines):
            self.written = self.run(command, subprocess.DEVNULL)
            shown = self.run(command, subprocess.STDOUT)
            if not any(re.fullmatch(pattern(wanted), text) for text in (self.written, shown)):
                yield f"`{command}` wrote\n{shown}"

    def report(self, _, lines):
        met = re.match(ANY_LINES + pattern(lines), self.written)
        if met is None:
            yield f"these lines are not in what was left of the report\n{self.written}"
        else:
            self.written = self.written[met.end() :]

    def sh(self, words, lines):
        if words:
            return self.toml(words, lines)
        targets = re.findall(r"^([\w-]+):", (ROOT / "Makefile").read_text(), re.M)
        named = [word for line in lines for word in re.findall(r"^make ([\w-]+)", line)]
        return [f"the Makefile has no target {word}" for word in named if word not in targets]

    def rust(self, words, lines):
        stands = "\n".join(lines) in (ROOT / words[0]).read_text()
        return [] if stands else [f"these lines do not stand in {words[0]}"]

    antt = rust

    def text(self, *_):
        return []


# The kinds of block, and whether a file is named behind the kind.
KINDS = {"toml": True, "capdl": True, "console": False, "report": False, "sh": False, "rust": True, "antt": True, "text": False}


def prose(page):
    """The lines of a page that stand in no block."""
    within = False
    for line in page.read_text().splitlines():
        if line.startswith("```"):
            within = not within
        elif not within:
            yield line


def headings(page):
    """How links name the headings of a page."""
    for line in prose(page):
        if line.startswith("#"):
            yield re.sub(r"[^\w -]", "", line.lstrip("#").strip().lower()).replace(" ", "-")


def lost_links(page):
    """The links of a page that lead nowhere in the repository."""
    for link in re.findall(r"\]\(([^)\s]+)\)", "\n".join(prose(page))):
        name, _, heading = link.partition("#")
        target = page.parent / name if name else page
        if not re.match(r"https?:", link) and (
            not target.exists() or (heading and target.suffix == ".md" and heading not in headings(target))
        ):
            yield f"{page}: the link {link} leads nowhere"


def too_long(page):
    """The lines of prose and the cells of tables of a page by hand that are too long."""
    text = page.read_text()
    made = {line for found in MADE.findall(text) for line in found.splitlines()}
    for line in () if "<!-- Made by " in text else (it for it in prose(page) if it not in made):
        cells = [cell.split() for cell in line.strip("|").split("|")] if line.startswith("|") else []
        if len(line) > MOST_COLUMNS and (not cells or page.name == "README.md"):
            yield f"{page}: a line of more than {MOST_COLUMNS} columns: {line[:40]}.."
        yield from (f"{page}: a cell of more than {MOST_WORDS} words: {' '.join(cell[:8])} .." for cell in cells if len(cell) > MOST_WORDS)


def words_by_hand(page):
    """How many words a page has, but for what a tool makes."""
    text = page.read_text()
    return 0 if "<!-- Made by " in text else len(MADE.sub("", text).split())


def other_version(page, program):
    """That the newest version of a change log is not the one that the program prints."""
    newest = VERSION.search(page.read_text()) if page.name == "CHANGELOG.md" else None
    said = subprocess.run([program / "sel4sim", "--version"], stdout=subprocess.PIPE, text=True, check=True).stdout if newest else ""
    if newest and newest[1] not in said:
        yield f"{page}: its newest version is {newest[1]}, and the program says {said.strip()}"


def faults(page, program):
    """What is wrong on a page."""
    yield from (*lost_links(page), *too_long(page), *other_version(page, program))
    with tempfile.TemporaryDirectory() as name:
        folder = pathlib.Path(name)
        for top in ("crates", "examples", "tests"):
            (folder / top).symlink_to(ROOT / top)
        runner = Runner(folder, program)
        for number, words, lines in blocks(page):
            if not words or words[0] not in KINDS or (KINDS[words[0]] and len(words) == 1):
                yield f"{page}:{number}: a block of no known kind, or without a name"
                continue
            for fault in getattr(runner, words[0])(words[1:], lines):
                yield f"{page}:{number}: {fault}"


def main():
    program = pathlib.Path(sys.argv[1]).resolve()
    pages = [pathlib.Path(page) for page in sys.argv[2:]]
    wrong = [fault for page in pages for fault in faults(page, program)]
    for fault in wrong:
        print(fault)
    print(f"{len(pages)} pages with {sum(map(words_by_hand, pages))} words by hand, {len(wrong)} faults")
    return 1 if wrong or not pages else 0


sys.exit(main())
