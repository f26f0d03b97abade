"""The names of the code that README.md and docs/proved.md cite: those that the crates do not define.

In README's list of the crates a name in brackets belongs to the crates that are named before it, since the last brackets. In proved.md
a name may be of any crate."""
import os
import re

from crates import TOP, listed

WORDS = "fn|struct|enum|trait|type|const|mod|ensures|requires|record|data|abbrev|unfoldable|pub|ghost|invariant"
DEFINED = re.compile(rf"\b(?:{WORDS})\s+(?=([A-Za-z_]\w*))|^\s+(?:pub )?(\w+) :|^\s+([A-Z]\w*)(?:\(|,| \{{)", re.M)
CITED = re.compile(r"\(([^()]*`[^()]*)\)|`([^`]+)`")
NAME = re.compile(r"[A-Za-z]\w*(?:::\w+)*")
# What proved.md names beside the crates' own: crates of the toolchain, and a name in set-ups.
OTHERS = {"atomic_table", "crossbeam_utils", "left_right", "import_flows"}


def read(*path):
    with open(os.path.join(TOP, *path), encoding="utf-8") as file:
        return file.read()


def defined(crate):
    """The names that the files of a crate define."""
    found = set()
    for folder in ("src", "specs"):
        for at, _, names in os.walk(os.path.join(TOP, "crates", crate, folder)):
            for name in names:
                found.update(*DEFINED.findall(read(at, name)))
    return found


def brackets(text, crates):
    """Each name in brackets of README's list, with the crates that it belongs to."""
    named, is_new = [], True
    for within, single in CITED.findall(text):
        if single in crates:
            named, is_new = [*([] if is_new else named), single], False
        for name in re.findall(r"`([^`]+)`", within):
            yield name, named
            is_new = True


def missing():
    """What is cited and not there, a line each."""
    crates = {it: defined(it) for it in listed()}
    for name, named in brackets(read("README.md").partition("\n## The crates")[2].partition("\n## ")[0], crates):
        if not any(crates[it].issuperset(name.split("::")) for it in named):
            yield f"README.md: {name} is not in {' or '.join(named)}"
    every = set().union(*crates.values(), crates, OTHERS)
    text = re.sub(r"^```.*?^```", "", read("docs", "proved.md"), flags=re.S | re.M)
    for name in sorted({it for it in re.findall(r"`([^`]+)`", text) if NAME.fullmatch(it) and re.search(r"[A-Z_]", it)}):
        if not every.issuperset(name.split("::")):
            yield f"docs/proved.md: {name} is in no crate"
