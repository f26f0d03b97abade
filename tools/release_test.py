#!/usr/bin/env python3
"""Tests of make release, in a small repository with a stand-in for the program: which commits are tagged, and why others are not."""
import os
import re
import subprocess
import tempfile
import unittest

import release

VERSION, OTHER = "2026-01-31", "2025-12-24"
CHANGES = f"# Changes\n\n## {VERSION}\n\n- New: a thing.\n\n## {OTHER}\n\n- Older.\n"
FILES = {
    "CHANGELOG.md": CHANGES,
    release.BUILT: f'pub const VERSION: &str = "{VERSION}, proved with Rattle, logic 0";\n',
    "tools/sel4sim.1": f'.TH SEL4SIM 1 "{VERSION}" "" ""\n',
    release.PROGRAM: f"#!/bin/sh\necho sel4sim {VERSION}, proved with Rattle, logic 0\n",
    "crates.txt": "sel4sim:\n",
    ".gitignore": "out/\n",
}
WHO = ["-c", "user.name=A", "-c", "user.email=a@example.org"]


class Release(unittest.TestCase):
    def setUp(self):
        folder = tempfile.TemporaryDirectory(prefix="sel4sim release ")
        self.addCleanup(folder.cleanup)
        self.top = folder.name
        self.git("init", "-q")
        for path, text in FILES.items():
            self.write(path, text)
        self.commit()
        page = f'<meta name="sel4sim-version" content="{VERSION}"><meta name="sel4sim-commit" content="{self.git("rev-parse", "HEAD")}">'
        self.write(release.PAGE, page)
        self.commit()

    def git(self, *words):
        return subprocess.run(["git", *WHO, *words], cwd=self.top, stdout=subprocess.PIPE, text=True, check=True).stdout.strip()

    def commit(self):
        self.git("add", "-A")
        self.git("commit", "-q", "--allow-empty", "-m", "A change")

    def write(self, path, text):
        there = os.path.join(self.top, path)
        os.makedirs(os.path.dirname(there), exist_ok=True)
        with open(there, "w", encoding="utf-8") as file:
            file.write(text)
        os.chmod(there, 0o755 if text.startswith("#!") else 0o644)

    def rewrite(self, path, old, new):
        with open(os.path.join(self.top, path), encoding="utf-8") as file:
            text = file.read()
        self.assertIn(old, text)
        self.write(path, text.replace(old, new, 1))

    def released(self, is_proved=True):
        os.environ |= {"GIT_COMMITTER_NAME": "A", "GIT_COMMITTER_EMAIL": "a@example.org"}
        return release.Repository(self.top, is_proved).release()

    def assert_refused(self, reason, **how):
        lines, status = self.released(**how)
        self.assertEqual(status, 1)
        self.assertTrue(any(reason in line for line in lines), lines)
        self.assertEqual(self.git("tag"), "")

    def test_tags_the_commit_with_its_changes(self):
        self.assertEqual(self.released(), ([f"tagged v{VERSION}; make dist packs it"], 0))
        self.assertEqual(self.git("rev-parse", f"v{VERSION}^{{commit}}"), self.git("rev-parse", "HEAD"))
        self.assertEqual(self.git("tag", "-l", "--format=%(contents)", f"v{VERSION}"), f"sel4sim {VERSION}\n\n- New: a thing.")

    def test_tags_a_version_once(self):
        self.released()
        self.commit()
        lines, status = self.released()
        self.assertEqual((lines, status), ([f"make release: there is a tag v{VERSION} already"], 1))

    def test_refuses_what_is_unreleased(self):
        for head in ("Unreleased", "2026-1-31"):
            self.write("CHANGELOG.md", CHANGES.replace(VERSION, head))
            self.commit()
            self.assert_refused("the top section of CHANGELOG.md")

    def test_refuses_a_section_without_changes(self):
        self.write("CHANGELOG.md", CHANGES.replace("- New: a thing.\n", ""))
        self.commit()
        self.assert_refused("the top section of CHANGELOG.md")

    def test_refuses_what_says_another_version(self):
        for path in (*release.SAYERS, release.PROGRAM):
            self.rewrite(path, VERSION, OTHER)
            self.commit()
            self.assert_refused("--version says" if path == release.PROGRAM else path)
            self.rewrite(path, OTHER, VERSION)
            self.commit()

    def test_refuses_a_program_without_proofs(self):
        self.rewrite(release.PROGRAM, "proved with Rattle, logic 0", "not proved")
        self.commit()
        self.assert_refused("--version says")

    def test_refuses_a_program_of_other_files(self):
        self.assert_refused("make prove", is_proved=False)

    def test_refuses_a_page_of_other_crates(self):
        self.write("crates/another/src/lib.rt", "// More.\n")
        self.commit()
        self.assert_refused("make browser")

    def test_refuses_a_tree_that_differs(self):
        self.write("README.md", "More.\n")
        self.assert_refused("the tree differs")

    def test_finds_the_version_in_this_repository(self):
        for path, place in release.SAYERS.items():
            self.assertRegex(place.search(release.Repository(release.TOP, True).read(path))[1], r"^\d{4}-\d\d-\d\d$")
        self.assertTrue(re.search(release.COMMIT, release.Repository(release.TOP, True).read(release.PAGE)))


if __name__ == "__main__":
    unittest.main()
