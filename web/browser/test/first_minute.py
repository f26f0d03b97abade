"""The first minute on the page: how soon it is there, what it is for, where to begin, and what is not given away."""
import json
import os

import sheets
from nothing_lost import FRAME, INSIDE
from tester import FORGET, pick

FOUND = "[...document.querySelectorAll('#found h3')].map((it) => it.textContent)"
GROUPS = "[...document.querySelectorAll('#examples optgroup')].map((it) => it.label)"


MOST_BYTES = 2_600_000
LOADS = 5
# When the first call is drawn, in milliseconds since the page was asked for.
FIRST_DRAWN = f"""(async () => {{
  const isDrawn = () => {FRAME}?.contentDocument?.getElementById('position')?.textContent === 'call 1 of 2' && {INSIDE}.querySelector('#forest .node') !== null;
  while (!isDrawn()) await new Promise(requestAnimationFrame);
  return performance.now();
}})()"""


def soon_there(test, _):
    """The page is no longer than it may be. How soon the first call is drawn is told and not judged: that depends on the machine's load."""
    size, times = test.site.stat().st_size, []
    test.wanted(size <= MOST_BYTES, f"the page has {size:,} bytes, and may have {MOST_BYTES:,}")
    for _ in range(LOADS):
        test.browser.value(FORGET)
        test.browser.open(test.site.as_uri())
        times.append(test.browser.value(FIRST_DRAWN))
        test.settle()
    print(f"{size:,} bytes; the first call is drawn after {min(times):.0f} ms, the shortest of {LOADS}, at a load of {os.getloadavg()[0]:.1f}", flush=True)


def welcomed(test, _):
    """The first visit sees what a call does, drawn, and a line that leads to the report and the exercises; the line goes with what is opened, and
    comes no more."""
    browser = test.browser
    for width, height in ((1280, 800), (390, 844)):
        browser.resize(width, height)
        test.forget()
        test.wanted(browser.value("document.getElementById('welcome').offsetParent !== null"), "nobody is welcomed")
        test.until(f"{INSIDE}?.getElementById('position')?.textContent === 'call 1 of 2'", "the first visit does not see the first call")
        top = browser.value(f"{FRAME}.getBoundingClientRect().top + {INSIDE}.querySelector('#forest .node').getBoundingClientRect().bottom")
        test.wanted(top < height, f"at {width} the first drawing begins {top} pixels down")
        test.wanted(browser.value("document.documentElement.scrollWidth") <= width, f"a window of {width} is overrun")
        test.click("#welcome-report")
        test.settle()
        test.wanted(browser.value("document.body.dataset.tab") == "report", "the first line does not lead to the report")
        test.wanted(browser.value("document.getElementById('editor').offsetParent !== null"), f"at {width} the set-up stays hidden")
    browser.resize_back()
    test.forget()
    test.click("#welcome-exercise")
    test.until(f"{sheets.SHEET}?.offsetParent !== null && document.querySelector('.course [aria-current]')", "the welcome leads to no exercise")
    test.wanted(browser.value("document.querySelector('.course [aria-current]').textContent.startsWith('1 ')"), "the first exercise is not the first")
    for word in ("capability", "CNode", "guard"):
        told = browser.value(f"[...document.querySelectorAll('.task dfn')].find((it) => it.textContent === {json.dumps(word)})?.title ?? ''")
        test.wanted(len(told) > 20, f"the word {word} is not explained")
    pick(test, "examples", "send_then_receive")
    test.open()
    test.wanted(browser.value("document.getElementById('welcome').offsetParent === null"), "who was here before is welcomed")


def one_row(test, _):
    """On a phone the head is one row, and the other controls are behind one of it; in a wide window all of it is one row."""
    browser = test.browser
    shown = "[...document.querySelectorAll('header :is(button, select, input:not(.unseen), label.button)')].filter((it) => it.offsetParent !== null).map((it) => it.id)"
    height = "document.querySelector('header').offsetHeight"
    pick(test, "examples", "revocation_of_badged_copies")
    browser.resize(390, 844)
    test.wanted(browser.value(shown) == ["examples", "run", "menu"], f"on a phone the head has {browser.value(shown)}")
    test.wanted(browser.value(height) < 60, f"on a phone the head is {browser.value(height)} pixels high")
    test.click("#menu")
    test.wanted({"name", "save", "share", "show-about"} <= set(browser.value(shown)), f"behind the menu there are {browser.value(shown)}")
    test.click("#menu")
    browser.resize(1280, 800)
    test.wanted(browser.value(height) < 60 and "menu" not in browser.value(shown), f"the head is {browser.value(height)} pixels high")
    field = browser.value("[document.getElementById('name').scrollWidth, document.getElementById('name').clientWidth]")
    test.wanted(field[0] <= field[1], "the name of a set-up is cut")
    browser.resize_back()


def told_words(test, _):
    """What the first words mean is told, where the first line leads, and to a reader who comes back behind "about"."""
    browser = test.browser
    test.forget()
    test.click("#welcome-words")
    told = browser.value("[...document.querySelectorAll('#terms dt')].map((it) => it.textContent)")
    test.wanted({"capability", "CNode", "slot", "guard", "badge", "rights", "original"} <= set(told), f"the words {told} are explained")
    test.wanted(browser.value("document.activeElement.id") == "words", "the first line does not lead to the words")
    browser.press("Escape")


def ordered(test, _):
    """The list has the exercises, the examples to begin with, and a way to all; in these tests come last; no key is in the page."""
    test.browser.value("sel4sim.page.openExample('examples', 'send_then_receive')")
    test.settle()
    groups = test.browser.value(GROUPS)
    wanted = ["exercises: capability spaces", "exercises: untyped memory", "exercises: derivation", "exercises: endpoints",
              "exercises: confinement", "exercises: goals", "examples: begin here"]
    shown = [it for it in groups if it != "what you changed"]
    test.wanted(shown == wanted, f"the list has {shown}")
    test.select("examples", "all")
    shown = test.browser.value(FOUND)
    test.wanted(shown[:7] == wanted and shown[7] == "examples: more examples", f"all begins with {shown[:8]}")
    test.wanted(all(it.startswith("why ") for it in shown[-9:-2]), f"all ends with {shown[-9:]}")
    test.browser.press("Escape")
    texts = test.browser.value("sel4sim.page.data.topics.flatMap(({ setups }) => setups.map(({ text }) => text))")
    keys = [*(sheets.SETUPS / "exercise_answers").glob("*.toml"), *(sheets.TOP / "tests" / "answers" / "goals" / "keys").glob("*.toml")]
    for key in keys:
        test.wanted(key.read_text() not in texts, f"the key of {key.stem} is in the page")


def searched(test, _):
    """All set-ups are found by words of their topic, their name or what they are about, and opened by keys; one that is not in the list stands
    there while it is open."""
    browser, shown = test.browser, "document.getElementById('name').value"
    pick(test, "examples", "three_clients")
    test.select("examples", "all")
    test.wanted(browser.value("document.activeElement.id") == "search", "the field to search in has no focus")
    all_found = browser.value("document.querySelectorAll('#found button').length")
    test.wanted(all_found == browser.value("sel4sim.page.data.topics.flatMap(({ setups }) => setups).length"), f"of all {all_found} are found")
    browser.insert("retype UNTYPED objects")
    found = browser.value("[...document.querySelectorAll('#found button')].map((it) => it.firstChild.data)")
    test.wanted("objects in an untyped" in found and len(found) < 10, f"found are {found}")
    test.wanted(f"{len(found)} set-up" in browser.value("document.querySelector('#found [role=status]').textContent"), "how many are found is not told")
    browser.press("ArrowDown")
    name = browser.value("document.activeElement.firstChild?.data ?? ''")
    test.wanted(name == found[0], f"Down leads to {name!r}")
    browser.press(" ")
    test.until(f"{shown} === {json.dumps(name.replace(' ', '_') + '.toml')} && !document.getElementById('all').open", f"{name} is not opened")
    test.settle()
    chosen = browser.value("document.getElementById('examples').selectedOptions[0].textContent")
    test.wanted(chosen.startswith(name), f"the list says {chosen!r}")
    pick(test, "examples", "three_clients")
    test.wanted(browser.value("document.querySelector('#examples .opened') === null"), "what was open stays in the list")


def said_in_words(test, _):
    """A report has the names of threads, a tab with nothing to tell says so, and a print has the name of the set-up."""
    browser = test.browser
    for name, lines in (("send_then_receive", ("12048 sender send: waiting", "thread 2048 sender ready", "slot 96 tcb 4096 receiver")),
                        ("two_clients_by_badge", ("22048 server mint: done", "thread 6144 second ready"))):
        pick(test, "examples", name)
        test.click("#tab-report")
        test.settle()
        for line in lines:
            test.wanted(line in test.text("panel-report"), f"the report of {name} lacks {line!r}: {test.text('panel-report')[:200]}")
    pick(test, "examples", "send_then_receive")
    test.click("#tab-why")
    test.settle()
    test.wanted("No call was refused." in test.text("panel-why"), f"where no call is refused, why says {test.text('panel-why')!r}")
    test.click("#tab-orders")
    test.settle()
    test.wanted("there is one order" in test.text("panel-orders"), f"of one client, orders says {test.text('panel-orders')[:80]!r}")
    test.click("#tab-report")
    test.settle()
    browser.call("Emulation.setEmulatedMedia", media="print")
    shown = browser.value("document.getElementById('printed-name').offsetParent !== null && document.getElementById('printed-name').textContent")
    test.wanted(shown == "send_then_receive.toml", f"the name on a print is {shown}")
    browser.call("Emulation.setEmulatedMedia", media="")


IN_SIGHT = "[...document.querySelectorAll('#tabs button')].filter((it) => it.offsetParent !== null).map((it) => it.textContent)"
RARE = ["trace", "migrate", "threads"]


def rare_ones_behind_more(test, _):
    """The tabs that are used less are behind "more"; one that is chosen by its key is in sight, and only as long."""
    browser = test.browser
    test.click("#tab-report")
    usual = browser.value(IN_SIGHT)
    test.wanted(usual[:2] == ["report", "steps"] and not set(RARE) & set(usual), f"at first the tabs {usual} are in sight")
    for name in RARE:
        test.wanted(browser.value(f"sel4sim.page.chooseAt({len(usual) + RARE.index(name)}), true"), "no tab is chosen by its place")
        test.wanted(browser.value(IN_SIGHT) == [*usual, name], f"where {name} is chosen {browser.value(IN_SIGHT)} are in sight")
    test.click("#tab-report")
    test.wanted(browser.value(IN_SIGHT) == usual, "a tab that is used less stays in sight")
    test.click("#more-tabs")
    test.wanted(browser.value(IN_SIGHT) == [*usual, *RARE], f"behind more there are {browser.value(IN_SIGHT)}")
    test.click("#more-tabs")
    test.wanted(browser.value(IN_SIGHT) == usual, "the tabs cannot be made fewer again")
    test.settle()


CHECKS = (soon_there, welcomed, one_row, told_words, ordered, searched, said_in_words, rare_ones_behind_more)
