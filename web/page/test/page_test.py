#!/usr/bin/env python3
"""page_test.py PROGRAM FOLDER: makes a page of each set-up in FOLDER and steps through it in chromium.
page_test.py --traces FOLDER: the same with traces that are there already, the files NAME.trace in FOLDER, each written with
`--ways`; without the set-ups of its own and the planted faults, which need the program.

Each page is stepped through forward and back (a long run for its first 60 calls) and by jumps; behind each step what it
shows is compared with a replay of the trace that is made here. Nothing that a page does may leave it: its policy has to
hold, and no request may reach the proxy. The same is done for the set-ups in the folder `setups`, with audits and without,
and faults that are planted in the page have to be found by it. With their effects hidden, the first calls are stepped through once more.
Then: the modules by themselves, the viewer, page.sh, texts and files that mean harm, the keys, the find box, a phone's
width, the forest alone, what a screen reader is told, and the colours; and faults that these have to find.
"""
import pathlib
import random
import shutil
import subprocess
import sys
import tempfile

import chromium
import modes
import planted
import special
from replay import Replay
from shown import READ, wrong_asked, wrong_page

PAGE = pathlib.Path(__file__).resolve().parent.parent
SETUPS = PAGE / "test" / "setups"
SEED = 7
MOST_STEPS = 60
MOST_ASKED = 6
JUMPS = 12


def needs():
    """What is missing on this machine."""
    if chromium.program() is None:
        yield "chromium (apt-get install chromium)"
    if shutil.which("node") is None:
        yield "node (apt-get install nodejs)"


def make_page(program, setup, folder, page=PAGE):
    """Makes a page by page.sh and gives its path; a refused set-up has none."""
    made = subprocess.run([page / "page.sh", program, setup], capture_output=True, timeout=600)
    if made.returncode > 1:
        return None
    path = folder / f"{setup.stem}.html"
    path.write_bytes(made.stdout)
    return path


class Stepper:
    """Steps through one page, and keeps what is wrong."""

    def __init__(self, browser, trace):
        self.browser, self.replay = browser, Replay(trace)
        self.last = self.replay.last
        self.compared, self.faults = 0, []

    def compare(self, number, way):
        shown = self.browser.value(READ)
        self.compared += 1
        for fault in wrong_page(shown, self.replay, number):
            self.faults.append(f"step {number}, {way}: {fault}")

    def forward(self):
        self.compare(0, "at first")
        for number in range(1, min(self.last, MOST_STEPS) + 1):
            self.browser.press("ArrowRight")
            self.compare(number, "forward")

    def back(self):
        for number in reversed(range(min(self.last, MOST_STEPS))):
            self.browser.press("ArrowLeft")
            self.compare(number, "back")

    def jump(self, way, number):
        """Goes to a step in one of several ways; the keys that step by ten start from where the page stands."""
        browser = self.browser
        if way == "slider":
            browser.value(f"(() => {{ const range = document.getElementById('range'); range.value = {number};"
                          " range.dispatchEvent(new Event('input')); })()")
        elif way == "address":
            browser.value(f"location.hash = '#{number}'")
            browser.until(f"document.getElementById('range').value === '{number}'")
        elif way == "click":
            browser.value(f"document.getElementById('calls').scrollTop = {44 * number}")
            browser.until(f"document.getElementById('call-{number}') !== null")
            browser.value(f"document.getElementById('call-{number}').click()")
        else:
            browser.press(way)

    def jumps(self):
        draw = random.Random(SEED)
        number = 0
        for _ in range(JUMPS):
            way = draw.choice(["slider", "address", "click", "Home", "End", "PageUp", "PageDown"])
            wanted = draw.randrange(self.last + 1)
            wanted = {"Home": 0, "End": self.last, "PageUp": max(0, number - 10),
                      "PageDown": min(self.last, number + 10)}.get(way, wanted)
            if way == "click" and self.last == 0 or way == "address" and wanted == number:
                continue
            self.jump(way, wanted)
            number = wanted
            self.compare(number, way)

    def asked(self):
        """Steps through the first calls with their effects hidden, each of which the same key shows."""
        self.browser.press("Home")
        self.browser.press("h")
        for number in range(1, min(self.last, MOST_ASKED) + 1):
            self.browser.press("ArrowRight")
            for fault in wrong_asked(self.browser.value(READ), self.replay, number):
                self.faults.append(f"step {number}, asked: {fault}")
            self.browser.press("ArrowRight")
            self.compare(number, "told")
        self.browser.press("h")

    def open(self, path):
        self.browser.open(path.as_uri())
        self.browser.value("document.getElementById('state-lines').open = true")
        self.browser.until("document.getElementById('state-text').textContent !== ''")

    def run(self, path):
        self.open(path)
        self.forward()
        self.back()
        self.jumps()
        self.asked()
        if self.browser.asked != [path.as_uri()] or self.browser.recorder.asked:
            self.faults.append(f"it asked for {self.browser.asked}, {self.browser.recorder.asked}")
        if self.browser.value("document.title") != f"{path.stem} · sel4sim run":
            self.faults.append(f"the title is {self.browser.value('document.title')!r}")
        self.faults += self.browser.complaints


def step_through(browser, program, setups, folder):
    """Steps through a page of each set-up: whether all is right."""
    pages = compared = wrong = 0
    for setup in setups:
        path = make_page(program, setup, folder)
        if path is None:
            continue
        stepper = Stepper(browser, trace_of(program, setup))
        stepper.run(path)
        for fault in stepper.faults[:5]:
            print(f"{setup.stem}: {fault}")
        pages, compared, wrong = pages + 1, compared + stepper.compared, wrong + bool(stepper.faults)
    print(f"{pages} pages, {compared} times compared, {wrong} pages with faults")
    return pages > 0 and wrong == 0


def trace_of(program, setup):
    return subprocess.run([program, "trace", "--ways", setup], capture_output=True, text=True, timeout=600).stdout


def faults_of_planted(browser, program, folder):
    """A function of a page's folder and a set-up that gives the faults which stepping forward finds."""
    def found(page, setup):
        stepper = Stepper(browser, trace_of(program, setup))
        stepper.open(make_page(program, setup, folder, page))
        stepper.forward()
        stepper.asked()
        return stepper.faults
    return found


def stand_in(folder):
    """A program that gives a file as the trace."""
    path = folder / "stand_in"
    path.write_text('#!/bin/sh\n[ "$1 $2" = "trace --ways" ] && exec cat "$3"\n')
    path.chmod(0o755)
    return path


def without_audits(browser, program, folder):
    """Whether pages that have a trace alone are right, and faults that are planted in their lookups are found."""
    alone = folder / "alone"
    alone.mkdir()
    for setup in SETUPS.glob("*.toml"):
        (alone / setup.name).write_text(trace_of(program, setup))
    program = stand_in(folder)
    return step_through(browser, program, sorted(alone.glob("*.toml")), folder) & planted.run(
        faults_of_planted(browser, program, folder), PAGE, alone, folder, planted.FAULTS_OF_LOOKUPS)


def main():
    missing = list(needs())
    if missing:
        print("make page-test needs " + ", ".join(missing))
        return 1
    folder = pathlib.Path(tempfile.mkdtemp(prefix="page_test_"))
    traces = sys.argv[1] == "--traces"
    program = stand_in(folder) if traces else pathlib.Path(sys.argv[1]).resolve()
    setups = sorted(pathlib.Path(sys.argv[2]).resolve().glob("*.trace" if traces else "*.toml"))
    browser = chromium.Chromium.started()
    try:
        right = step_through(browser, program, setups, folder)
        if not traces:
            right &= step_through(browser, program, sorted(SETUPS.glob("*.toml")), folder)
            right &= planted.run(faults_of_planted(browser, program, folder), PAGE, SETUPS, folder, planted.FAULTS)
            right &= without_audits(browser, program, folder)
        (folder / "harm.trace").write_text(special.RUN)
        right &= step_through(browser, stand_in(folder), [folder / "harm.trace"], folder)
        right &= special.run(browser, PAGE, folder)
        right &= special.run(browser, PAGE, folder, modes.CHECKS)
        right &= planted.run_further(browser, PAGE, folder)
    finally:
        browser.close()
        shutil.rmtree(folder)
    return 0 if right else 1


if __name__ == "__main__":
    sys.exit(main())
