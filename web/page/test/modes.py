"""The find box, a phone's width, the forest alone, and effects that are hidden. Each check yields what is wrong."""
import json

from special import COUNT, open_run, text, wait


def found(browser, _, folder):
    """The find box finds what the page writes itself of a call: a slot's place, a name, what a reply means."""
    for wanted, number in (("root[5]", COUNT - 2), ("root[4]", COUNT - 3), ("2048.cspace", COUNT - 1), ("sender", 1),
                           ("slot 160", COUNT - 2), ("index 0101", COUNT - 2), ("5 bytes", None)):
        open_run(browser, folder)
        browser.value(f"document.getElementById('find').value = {json.dumps(wanted)}")
        browser.press("/")
        browser.press("Enter")
        place = f"boot, {COUNT} calls" if number is None else f"call {number} of {COUNT}"
        if text(browser, "position") != place or (text(browser, "found") == "not found") != (number is None):
            yield f"{wanted!r} leads to {text(browser, 'position')}, and {text(browser, 'found')!r} is said"


IN_SIGHT = """[...document.querySelectorAll('header .buttons button')].map((it) => it.getBoundingClientRect())
  .map(({ left, top, right, bottom }) => [left, top, innerWidth - right, bottom - top, right - left])"""
PHONES = ((390, 844), (360, 640))


def phone(browser, _, folder):
    """At a phone's width the bar with the buttons stays at the top, these are large enough, the call's sentence is in
    sight, and the list of calls is shown when it is asked for."""
    for width, height in PHONES:
        browser.resize(width, height, is_phone=True)
        open_run(browser, folder)
        browser.press("End")
        box = "document.getElementById('sentence').getBoundingClientRect().bottom"
        if browser.value(box) > height / 2:
            yield f"at {width} the sentence ends at {browser.value(box)}"
        browser.value("scrollTo(0, document.documentElement.scrollHeight)")
        wait(browser)
        if browser.value("scrollY") < 100:
            yield f"at {width} the page does not scroll"
        for left, top, right, high, wide in browser.value(IN_SIGHT):
            if not (0 <= left and 0 <= top < 20 and 0 <= right and high >= 44 and wide >= 44):
                yield f"at {width} a button stands at {left}, {top}, {right} and is {wide} by {high}"
        lists = "document.getElementById('calls').getBoundingClientRect().height"
        folded = browser.value(lists)
        browser.value("document.getElementById('more').click()")
        shown = browser.value(lists)
        if folded != 0 or shown < 200 or browser.value("document.getElementById('find').offsetHeight") < 20:
            yield f"at {width} the list is {folded} high, and {shown} when it is asked for"
        if browser.value("document.documentElement.scrollWidth > innerWidth"):
            yield f"at {width} the page is wider than its window"
    browser.resize_back()


SHOWN_PARTS = """[...document.querySelectorAll('#run section, header, nav, #said, #changed')]
  .filter((it) => it.getBoundingClientRect().height > 0).map((it) => it.id || it.nodeName).sort().join(' ')"""


def forest_alone(browser, _, folder):
    """A key shows the forest alone in large type, below the call, and steps still; the same key leads on to the capability spaces,
    the memory and back, and Escape back at once."""
    open_run(browser, folder)
    whole = browser.value(SHOWN_PARTS)
    size = "parseFloat(getComputedStyle(document.querySelector('#forest .node')).fontSize)"
    usual = browser.value(size)
    for back in (["f", "f", "f"], ["Escape"]):
        browser.press("f")
        if browser.value(SHOWN_PARTS) != "forest said what":
            yield f"with the forest alone the page shows {browser.value(SHOWN_PARTS)}"
        if browser.value(size) < 1.5 * usual:
            yield f"the forest alone has letters of {browser.value(size)} pixels"
        browser.press("ArrowRight")
        if "call 1 " not in text(browser, "position"):
            yield f"with the forest alone a step leads to {text(browser, 'position')}"
        browser.press("Home")
        for key, parts in zip(back, ("said spaces what", "memory said what", whole) if len(back) > 1 else (whole,)):
            browser.press(key)
            if browser.value(SHOWN_PARTS) != parts:
                yield f"{key} leads to {browser.value(SHOWN_PARTS)}, and not to {parts}"
        if browser.value(size) != usual:
            yield f"the forest keeps letters of {browser.value(size)} pixels"


def hidden_effects(browser, _, folder):
    """Where effects are hidden, each way on shows the call first, the same way its effect; one back shows no call alone."""
    open_run(browser, folder)
    browser.press("h")
    told = "document.getElementById('said').textContent.includes('asks to')"
    for pressed in ("ArrowRight", "j", "ArrowDown", "r"):
        browser.press(pressed)
        asked, at = browser.value(told), text(browser, "position")
        browser.press(pressed)
        if not asked or browser.value(told) or text(browser, "position") != at:
            yield f"{pressed} twice leads from {at} to {text(browser, 'position')}"
    browser.value("document.getElementById('on').click()")
    if not browser.value(told):
        yield "the button on shows the effect at once"
    browser.press("ArrowLeft")
    if browser.value(told) or f"call {COUNT - 3} " not in text(browser, "position"):
        yield f"one back from a call alone is {text(browser, 'position')}"
    answers = "[...document.querySelectorAll('.call')].filter((it) => it.querySelector('.answer').textContent).length"
    if browser.value(answers) != COUNT - 2:
        yield f"{browser.value(answers)} replies stand in the list"
    browser.press("h")
    browser.press("ArrowRight")
    if browser.value(told) or browser.value(answers) != COUNT + 1:
        yield "the effects stay hidden"


CHECKS = (found, phone, forest_alone, hidden_effects)
