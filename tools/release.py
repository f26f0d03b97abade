#!/usr/bin/env python3
"""release.py: what make release does: tags the commit that is checked out as a release, v and its version.

The version is the date that heads the top section of CHANGELOG.md, whose text the tag has too. There is no tag if anything says another
version, or is of other sources: `--version` of the program, which has to be the proved one of these very files; the man page; the names of
packages (`crates/command_line/src/built.rt`); and the page, whose commit has to have the same crates. The tree has to be that of the commit.
CONTRIBUTING.md has the steps of a release."""
import os
import re
import subprocess
import sys

import gate
import prove
from crates import TOP

PROGRAM, PAGE, BUILT = "crates/sel4sim/out/sel4sim", "web/site/sel4sim.html", "crates/command_line/src/built.rt"
SECTION = re.compile(r"^## ([^\n]+)\n(.*?)(?=^## |\Z)", re.M | re.S)
# What else says the version, with the place of it in the text.
SAYERS = {
    BUILT: re.compile(r'VERSION: &str = "([^,"]*)'),
    "tools/sel4sim.1": re.compile(r'^\.TH SEL4SIM 1 "([^"]*)"', re.M),
    PAGE: re.compile(r'<meta name="sel4sim-version" content="([^"]*)">'),
}
COMMIT = re.compile(r'<meta name="sel4sim-commit" content="(\w*)">')


class Repository:
    """A clone of this repository, and whether its program is the proved one of the files that are there."""

    def __init__(self, top, is_proved):
        self.top, self.is_proved = top, is_proved
        found = SECTION.search(self.read("CHANGELOG.md"))
        self.version, self.changes = (found[1], found[2].strip()) if found else ("", "")

    def read(self, path):
        with open(os.path.join(self.top, path), encoding="utf-8") as file:
            return file.read()

    def git(self, *words):
        """The status of a command of git, and what it writes."""
        done = subprocess.run(["git", *words], cwd=self.top, stdout=subprocess.PIPE, stderr=subprocess.DEVNULL, text=True, check=False)
        return done.returncode, done.stdout.strip()

    def tag(self):
        return f"v{self.version}"

    def others(self):
        """What says another version than the top section."""
        for path, place in SAYERS.items():
            found = place.search(self.read(path))
            if not found or found[1] != self.version:
                yield f"{path} says {found[1] if found else 'no version'}, and CHANGELOG.md {self.version}"

    def faults(self):
        """Why this commit is no release."""
        if not re.fullmatch(r"\d{4}-\d\d-\d\d", self.version) or not self.changes:
            yield f"the top section of CHANGELOG.md is {self.version!r}, and not the date of a release with its changes"
            return
        yield from self.others()
        if self.git("status", "--porcelain") != (0, ""):
            yield "the tree differs from its commit"
        if self.git("rev-parse", "--verify", f"refs/tags/{self.tag()}")[0] == 0:
            yield f"there is a tag {self.tag()} already"
        yield from self.faults_of_builds()

    def faults_of_builds(self):
        """What is wrong with the program and the page."""
        if not self.is_proved:
            yield "the program is not proved of these files: make prove"
        else:
            said = subprocess.run([os.path.join(self.top, PROGRAM), "--version"], stdout=subprocess.PIPE, text=True, check=True).stdout
            if not said.startswith(f"sel4sim {self.version}, proved with "):
                yield f"--version says {said.strip()!r}, and CHANGELOG.md {self.version}"
        commit = COMMIT.search(self.read(PAGE))
        if not commit or self.git("diff", "--quiet", commit[1], "HEAD", "--", "crates", "crates.txt")[0]:
            yield f"{PAGE} is of other crates: make browser, and commit it"

    def release(self):
        """Tags the commit. Returns what to say, and the status."""
        wrong = list(self.faults())
        if not wrong and self.git("tag", "-a", self.tag(), "--cleanup=verbatim", "-m", f"sel4sim {self.version}\n\n{self.changes}\n")[0]:
            wrong = ["git makes no tag"]
        return [f"make release: {it}" for it in wrong] or [f"tagged {self.tag()}; make dist packs it"], 1 if wrong else 0


def main():
    lines, status = Repository(TOP, gate.has_built() or prove.is_built()).release()
    print("\n".join(lines), file=sys.stderr if status else sys.stdout)
    return status


if __name__ == "__main__":
    sys.exit(prove.status_of(main, "make release: stopped"))
