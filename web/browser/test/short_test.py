#!/usr/bin/env python3
"""short_test.py [--page FILE] [--seconds N] [--times]: tries how the page behaves, in chromium alone and without the native program.

The page is a draft (web/browser/build.py) of the sources as they are, with the program that web/site/sel4sim.html has in it, or
FILE. So no toolchain, no network and no display is needed; where chromium is not installed nothing is tried, which is said.
What the program in the page answers is not looked at here: browser_test.py compares it with the native one.

Nothing is waited for longer than N seconds. With --times it is told how long each check takes.
"""
import pathlib
import sys
import tempfile
import time

TOP = pathlib.Path(__file__).resolve().parent.parent.parent.parent
sys.path[:0] = [str(TOP / "web" / "page" / "test"), str(TOP / "tests"), str(TOP / "web" / "browser" / "test"), str(TOP / "web" / "browser")]

import asked_by_hand  # noqa: E402
import browser_test  # noqa: E402
import build  # noqa: E402
import chromium  # noqa: E402
import drawn  # noqa: E402
import first_minute  # noqa: E402
import gives_nothing_away  # noqa: E402
import goals_reached  # noqa: E402
import held  # noqa: E402
import helped  # noqa: E402
import in_bits  # noqa: E402
import lectures  # noqa: E402
import nothing_lost  # noqa: E402
import sheets  # noqa: E402
import what_if  # noqa: E402
from tester import Tester, option  # noqa: E402

# Those that take a browser of their own, most of a minute, or node are left to browser_test.py; and so are those of commands that are newer
# than the page that was made last.
LEFT = (nothing_lost.with_scroll_bars, drawn.contrasts_of_parts, drawn.ways_agree)
CHECKS = (*first_minute.CHECKS, *(it for it in nothing_lost.CHECKS if it not in LEFT), *gives_nothing_away.CHECKS,
          *helped.CHECKS, sheets.in_turn, sheets.low_window, sheets.printed_state, lectures.embedded_steps, *(it for it in drawn.CHECKS if it not in LEFT),
          *what_if.CHECKS, *asked_by_hand.CHECKS, *goals_reached.CHECKS, *in_bits.CHECKS, held.notes, held.rights_chosen, browser_test.nothing_leaves)


def needs():
    """What is missing on this machine."""
    if chromium.program() is None:
        yield "chromium is not installed (apt-get install chromium)"
    elif not build.SITE.exists():
        yield f"there is no {build.SITE} whose program it could have (make browser)"


def tried(browser, site, folder):
    """Tries each check by itself: the faults."""
    test = Tester(browser, None, folder, site)
    stored = (build.SETUPS / "examples" / "send_then_receive.toml").read_bytes()
    test.open()
    for check in CHECKS:
        begun = time.time()
        try:
            check(test, stored)
        except RuntimeError as fault:
            test.say(f"{check.__name__}: {fault}")
        if "--times" in sys.argv:
            print(f"{check.__module__}.{check.__name__}: {time.time() - begun:.1f} s", flush=True)
    return test.faults


def main():
    missing = list(needs())
    if missing:
        print(f"the page is not tried: {', '.join(missing)}")
        return 0
    with tempfile.TemporaryDirectory(prefix="short_test_") as folder:
        site = pathlib.Path(option("--page") or pathlib.Path(folder, "draft.html")).resolve()
        if not option("--page"):
            site.write_text(build.draft())
        try:
            browser = chromium.Chromium.started(width=1280, height=800)
        except (OSError, RuntimeError) as fault:
            print(f"the page is not tried: chromium does not start on this machine ({fault})")
            return 0
        try:
            faults = tried(browser, site, folder)
        finally:
            browser.close()
    print(f"the page, tried shortly in chromium: {len(faults)} faults of {len(CHECKS)} checks")
    return 1 if faults else 0


if __name__ == "__main__":
    sys.exit(main())
