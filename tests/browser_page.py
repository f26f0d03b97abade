#!/usr/bin/env python3
"""browser_page.py PAGE: says whether the page that has the program in it is older than the program.

The page names the last commit of what it is made of (web/browser/build.py). Being older is no fault, since the page is made
once a release; a page that names no commit, or changes that were never committed, is one.
"""
import pathlib
import re
import subprocess
import sys

ROOT = pathlib.Path(__file__).resolve().parent.parent
sys.path.insert(0, str(ROOT / "web" / "browser"))

from build import MADE_OF  # noqa: E402


def git(*words):
    """What git writes, and whether it went well."""
    ran = subprocess.run(["git", *words], cwd=ROOT, capture_output=True, text=True, check=False)
    return ran.stdout.strip(), ran.returncode == 0


def main():
    page = pathlib.Path(sys.argv[1])
    if not page.is_file():
        print(f"there is no {page}: make browser makes it")
        return 1
    named = re.search(r'<meta name="sel4sim-commit" content="([^"]*)">', page.read_text())
    if named is None or not re.fullmatch("[0-9a-f]{40}", named[1]):
        print(f"{page} was made of files that differ from their commit, or names none: commit them, and then make browser")
        return 1
    last, _ = git("log", "-1", "--format=%H", "--", *MADE_OF)
    behind, is_known = git("rev-list", "--count", f"{named[1]}..HEAD", "--", *MADE_OF)
    if named[1] == last:
        print(f"{page} is as new as the program")
    elif is_known:
        print(f"{page} is older than the program, by {behind} commits: make browser")
    else:
        print(f"{page} names the commit {named[1][:12]}, which is not here: make browser")
    return 0


if __name__ == "__main__":
    sys.exit(main())
