"""The man page, made from what `PROGRAM --help` and `PROGRAM COMMAND --help` print: commands, options, exit statuses and examples
are those of the help. pages.py writes it."""
import os
import re

HEAD = """.\\" Made by tools/pages.py from the help of sel4sim: change the help there, or tools/man_page.py.
.TH SEL4SIM 1 "{version}" "sel4sim {version}" "User commands"
.SH NAME
sel4sim \\- simulate the capability part of the seL4 microkernel
.SH SYNOPSIS
.B sel4sim
.RI [ COMMAND ]
.RI [ OPTIONS ]
.RI [ FILE ]...
.SH DESCRIPTION
.B sel4sim
reads a set-up in TOML: a memory layout and a list of calls, each made by a thread.
It runs the calls on a simulated kernel (seL4, without MCS) with capability spaces, derivation, untyped memory, threads and
endpoints, and writes a report: what each call was answered, who waits where, and what each slot holds.
If no
.I FILE
is named, or it is a hyphen, standard input is read. If no command is named, the file is run as by
.BR check .
"""
TAIL = """.PP
Of several files it is the greatest of their statuses.
.SH FILES
Below the prefix of the installation, such as
.IR /usr/local :
.TP
.I share/sel4sim/examples
Set-ups, each with its report.
.TP
.I share/sel4sim/page
.I page.sh
makes a page of a run, for a browser;
.I viewer.html
shows traces.
.TP
.I share/sel4sim/sel4sim.wasm
The program for WebAssembly.
.TP
.I share/doc/sel4sim
The pages:
.I docs/first-set-up.md
to begin with,
.I docs/formats.md
for the keys of a set-up and the parts of a report,
.I docs/errors.md
for refusals and faults,
.I docs/install.md
for how to report a fault. The page of a command, as
.IR docs/audit.md ,
has which of its options go together.
"""


def safe(text):
    """A text as it stands in a line of a man page."""
    text = text.replace("\\", "\\e").replace("-", "\\-")
    return f"\\&{text}" if text.startswith((".", "'")) else text


def sentence(text):
    return safe(f"{text[0].upper()}{text[1:]}{'' if text.endswith('.') else '.'}") if text else ""


def entry(head, about):
    """A paragraph with a head of its own."""
    return f".TP\n{head}\n{sentence(about)}\n"


def option(it):
    """An option: how it is written, and what it is for."""
    spelt = ", ".join(f"\\fB{safe(spelling)}\\fR" for spelling in it.spellings)
    return entry(spelt + f" \\fI{safe(it.value)}\\fR" * bool(it.value), it.told)


def command(name, about, told):
    """A command: its usage, what it is for, and its options but for the help."""
    yield f".SS {name}\n.B {safe(told.usage)}\n.PP\n{sentence(about)}\n"
    yield from (option(it) for it in told.options if it.name != "help")


def page(whole, commands, version):
    """The man page, of the help of the program and of each command with its name and what it is for."""
    yield HEAD.format(version=version)
    yield ".SH COMMANDS\n"
    for it in commands:
        yield from command(*it)
    yield ".SH OPTIONS\n"
    yield from map(option, whole.options)
    if whole.examples:
        yield ".SH EXAMPLES\n"
        yield from (entry(f".B {safe(words)}", about) for words, about in whole.examples)
    yield '.SH "EXIT STATUS"\n'
    yield from (entry(f".B {number}", about) for number, about in whole.statuses)
    yield TAIL


def newest_version(top):
    """The newest version of the change log; what is unreleased comes before it."""
    with open(os.path.join(top, "CHANGELOG.md"), encoding="utf-8") as file:
        return re.search(r"^## (\d{4}-\d\d-\d\d)$", file.read(), re.M)[1]
