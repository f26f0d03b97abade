#!/usr/bin/env python3
"""pages.py [--check] [PROGRAM]: writes what is made of the sources, and with PROGRAM also what is made of its help.

Of the sources: docs/definitions.md, as definitions.py has it, and lists of the crates, with the first sentence of `src/lib.rt` or
`src/main.rt`. Of what `PROGRAM --help` and `PROGRAM COMMAND --help` print: the files of tools/completions/, which complete the
words of a command line, as completions.py has them; the man page tools/sel4sim.1, as man_page.py has it; and tables of options.

In a page by hand a line `<!-- WORDS -->` begins what is made, and `<!-- to here` ends it. The words are `crates`; `statuses`, the
exit statuses of the help; and `options of COMMAND`, which has all options but `--help`, or only those after a colon, as in
`options of audit: after slot`. Each option of a command has to be in the table of a page.

With --check nothing is written. The status is 1 if a file has something else than would be written, if a rule of definitions.py is
broken, or if README or proved.md cites a name that no crate defines (cited.py)."""
import difflib
import os
import re
import sys

import cited
import definitions
import man_page
from completions import completions
from crates import TOP, listed
from helps import NAME, helps

DOCS, TOOLS = os.path.join(TOP, "docs"), os.path.join(TOP, "tools")
MADE = re.compile(r"^(<!-- ((?:crates|options|statuses)\b.*?) -->\n)(.*?)^(<!-- to here\b)", re.M | re.S)
MOST_LINES = 20
ROOMS = (
    ("The parts of a kernel", ("cap_core", "mem_core", "slot_core", "cspace_core", "ipc_core")),
    ("The kernel", ("kernel_",)),
    ("What is asked of a kernel", ("list_", "query_")),
    ("Set-ups", ("setup_",)),
    ("Commands, and the command line", ("command_",)),
    ("The program", ("program", "sel4sim")),
    ("Tests", ("test_",)),
    ("Measures", ("bench_",)),
)


def read(path):
    try:
        with open(path, encoding="utf-8") as file:
            return file.read()
    except FileNotFoundError:
        return ""


def head_of(name):
    """The first sentence of the text at the top of a crate's first file."""
    folder = os.path.join(TOP, "crates", name, "src")
    text = read(os.path.join(folder, "lib.rt")) or read(os.path.join(folder, "main.rt"))
    paragraph = " ".join(line.removeprefix("//!").strip() for line in re.match(r"(?://! *\S.*\n)*", text)[0].splitlines())
    return re.split(r"(?<=\.) (?=[A-Z])", paragraph, maxsplit=1)[0]


def crates(_):
    """The lists of crates, with a title for each room."""
    lines = listed()
    rooms = {title: [it for it in lines if it.startswith(names)] for title, names in ROOMS}
    left = set(lines).difference(*rooms.values())
    if left:
        sys.exit(f"pages.py has no room for {', '.join(sorted(left))}")
    for at, (title, names) in enumerate(rooms.items()):
        yield from [""] * (at > 0)
        yield from (f"### {title}", "", *(f"- `{name}`. {head_of(name)}" for name in names))


class OfHelp:
    """What is made of the program's help."""

    def __init__(self, program):
        self.whole, self.told = helps(program)
        self.options_of = {name: {it.name: it for it in told.options if it.name != "help"} for name, _, told in self.told}
        self.shown = set()

    def options(self, words):
        """A table of options of a command."""
        command, _, names = words.removeprefix("of ").partition(": ")
        known = self.options_of[command]
        yield from ("| option | what it does |", "|---|---|")
        for name in names.split() or known:
            self.shown.add((command, name))
            value, about = (known[name].value, known[name].told) if name in known else ("", "there is no such option")
            yield f"| `--{name}{' ' * bool(value)}{value}` | {about.replace('|', chr(92) + '|')} |"

    def statuses(self, _):
        """The table of the exit statuses."""
        yield from ("| status | means |", "|---|---|")
        yield from (f"| {number} | {about} |" for number, about in self.whole.statuses)

    def files(self):
        """The files for shells, and the man page."""
        shells = {os.path.join(TOOLS, "completions", name): text for name, text in completions(self.whole, self.told).items()}
        page = man_page.page(self.whole, self.told, man_page.newest_version(TOP))
        return shells | {os.path.join(TOOLS, f"{NAME}.1"): "".join(page)}

    def missing(self):
        """The options that no page has."""
        return [f"no page has --{name} of {command} in a table" for command, known in self.options_of.items()
                for name in known if (command, name) not in self.shown]


def filled(text, makers):
    """A page with what is made in it, where there is a maker."""
    def anew(found):
        kind, _, words = found[2].partition(" ")
        made = "".join(f"{line}\n" for line in makers[kind](words)) if kind in makers else found[3]
        return found[1] + made + found[4]
    return MADE.sub(anew, text)


def made_of(program):
    """Each file with its text, and what is wrong."""
    page, wrong = definitions.made()
    by_hand = [os.path.join(DOCS, name) for name in sorted(os.listdir(DOCS)) if name.endswith(".md") and name != "definitions.md"]
    of_help = OfHelp(program) if program else None
    makers = {"crates": crates} | ({"options": of_help.options, "statuses": of_help.statuses} if program else {})
    files = {os.path.join(DOCS, "definitions.md"): page} | {path: filled(read(path), makers) for path in by_hand}
    kinds = {found[2].split()[0] for text in files.values() for found in MADE.finditer(text)}
    wrong += [f"no page has a line that begins {it}" for it in makers if it not in kinds]
    return files | (of_help.files() if program else {}), wrong + (of_help.missing() if program else [])


def main(words):
    check, program = "--check" in words, next((it for it in words if it != "--check"), None)
    files, wrong = made_of(program)
    for path, text in files.items():
        if check and text != read(path):
            differing = list(difflib.unified_diff(read(path).splitlines(), text.splitlines(), "as it is", "as it is made", lineterm="", n=0))
            wrong.append("\n".join([f"{os.path.relpath(path, TOP)}: tools/pages.py {program or ''} writes", *differing[:MOST_LINES]]))
        elif text != read(path) and not wrong:
            with open(path, "w", encoding="utf-8") as file:
                file.write(text)
    wrong += cited.missing()
    print("\n".join([*wrong, f"{len(files)} files, {len(wrong)} faults"]))
    return 1 if wrong else 0


if __name__ == "__main__":
    sys.exit(main(sys.argv[1:]))
