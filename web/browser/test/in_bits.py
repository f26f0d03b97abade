"""An exercise that asks how the bits of an index are read: they are clicked apart by the mouse, by a finger and by keys."""
import json

from drawn import SIZES_OF_WINDOWS, at_each_size
from gives_nothing_away import answer_all, at_rest
from hearing import tree, value
from sheets import MARKING, READ, SHEET, answers_of, cut, cuts_of, focus_first, give, hides_replies, open_exercise, press_button

NAME = "03_guards_and_depths"
CARD = "sel4sim.page.exercise.sheet.cards.get({})"
BESIDE = "document.querySelector('.beside iframe')"
CUTS = "sel4sim.page.exercise.sheet.cuts"
# For each index what is shown of it in the end: the kinds of its boxes, and their bits.
BOXES = """[...document.querySelectorAll('.cutting .lookup')].map((it) => [it.closest('.card').value,
  [...it.querySelectorAll('.bits')].map((box) => [box.classList[1], box.dataset.bits])])"""
SHOWN = {
    5: [["refused-bits", "001"], ["unread", "100111"]], 6: [["passed", "101"], ["slot-bits", "10"], ["refused-bits", "10"], ["unread", "11"]],
    7: [["passed", "101"], ["slot-bits", "10"], ["passed", "01"], ["refused-bits", "1"]],
    8: [["passed", "101"], ["slot-bits", "10"], ["passed", "01"], ["slot-bits", "11"], ["refused-bits", "1"]],
    9: [["passed", "101"], ["slot-bits", "10"], ["passed", "01"], ["slot-bits", "11"]], 10: [["passed", "101"], ["slot-bits", "10"], ["passed", "01"], ["slot-bits", "11"]],
    11: [["passed", "101"], ["slot-bits", "10"]], 12: [["passed", "101"], ["slot-bits", "10"], ["refused-bits", "0111"]],
}


def gap_at(test, number, at):
    """Where a gap stands in the window, brought into sight."""
    return test.browser.value(f"(() => {{ const it = {CARD.format(number)}.cutting.gaps[{at - 1}]; it.scrollIntoView({{ block: 'center' }});"
                              " const { left, top, width, height } = it.getBoundingClientRect(); return [left + width / 2, top + height / 2]; })()")


def clicked_apart(test, _):
    """By the mouse in a wide window and by a finger on a phone: a press cuts, and one more joins again. With all replies right and an index read wrong
    nothing is shown; when that is mended all is, with the boxes of the steps; what is handed in tells how many were read right."""
    browser = test.browser
    for width, height, press in ((1280, 800, browser.click_at), (390, 844, browser.tap_at)):
        browser.resize(width, height)
        browser.call("Emulation.setTouchEmulationEnabled", enabled=width < 400)
        test.forget()
        open_exercise(test, NAME)
        for number, read in READ[NAME].items():
            for at in (*cuts_of(read), *[1, 1] * (number == 6)):
                press(*gap_at(test, number, at))
        wanted = {str(number): cuts_of(read) for number, read in READ[NAME].items()}
        test.wanted(browser.value(CUTS) == wanted, f"at {width} the bits are cut as {browser.value(CUTS)}")
        press(*gap_at(test, 9, 8))
        for number, answer in answers_of(NAME).items():
            browser.value(f"{CARD.format(number)}.answer = {json.dumps(answer)}")
        hides_replies(test, NAME, answers_of(NAME), "when bits are cut")
        test.press_with_mouse("mark my answers")
        test.until("document.querySelector('.cut-outcome .missed')", "bits that are cut wrong are not marked")
        at_rest(test)
        test.wanted(browser.value("sel4sim.page.exercise.state.stage") == "marked", "with an index read wrong all is shown")
        test.wanted("Change what is marked ✗: 9. Bits: 7 of 8 read right." in browser.value(MARKING), f"it is told {browser.value(MARKING)!r}")
        test.wanted(browser.value("document.activeElement === " + CARD.format(9) + ".cutting.gaps[7]"), "the focus is not on the bits that are wrong")
        hides_replies(test, NAME, answers_of(NAME), "when bits are wrong")
        press(*gap_at(test, 9, 8))
        test.press_with_mouse("mark again")
        test.until("document.querySelector('.answered')", f"at {width} with all read right no answers are shown")
        at_rest(test)
        shown = dict(browser.value(BOXES))
        test.wanted(shown == SHOWN, f"at {width} the indices are shown as {shown}")
        story = browser.value("sel4sim.page.exercise.story")
        test.wanted("8 of 8 right" in story and "bits 8 of 8" in story, f"what is handed in tells {story!r}")
        test.wanted(browser.value("document.querySelector('.course [aria-current]').textContent").endswith("✓"), "the row of exercises has no mark")
    browser.call("Emulation.setTouchEmulationEnabled", enabled=False)
    browser.resize_back()


def kept_over_a_reload(test, _):
    """How bits are cut, and their marks, stay over a reload; who has the answers shown is told the boxes, and how it was cut."""
    browser = test.browser
    test.forget()
    answer_all(test, NAME)
    browser.value(f"{CARD.format(6)}.cutting.gaps[0].click()")
    test.press_with_mouse("mark my answers")
    test.until("document.querySelector('.cut-outcome .missed')", "bits that are cut wrong are not marked")
    at_rest(test)
    cuts, story = browser.value(CUTS), browser.value("sel4sim.page.exercise.story")
    test.wanted("bits 7 of 8" in story, f"what is handed in tells {story!r}")
    browser.reload()
    test.until(f"{SHEET}?.inert === false && document.querySelector('.cut-outcome .missed')", "a reload loses the marks of bits")
    at_rest(test)
    test.wanted((browser.value(CUTS), browser.value("sel4sim.page.exercise.story")) == (cuts, story), "a reload loses how bits are cut")
    test.press_with_mouse("show the answers")
    test.until("document.querySelectorAll('.cutting .lookup').length === 8", "no boxes are shown")
    said = browser.value(f"{CARD.format(6)}.cutting.element.textContent")
    test.wanted("1 01 10 10 11" in said and "✗" in said, f"of what was cut wrong is said {said!r}")
    test.wanted(not browser.value("document.querySelector('.course [aria-current]').textContent").endswith("✓"), "an index read wrong is told as right in the row")


def by_keys(test, _):
    """One at a time, by keys alone: left and right go from gap to gap, the space bar cuts, and Tab goes on to the answer."""
    browser = test.browser
    test.forget()
    open_exercise(test, NAME)
    browser.value("document.querySelector('.marking input').click()")
    for number, answer in answers_of(NAME).items():
        test.until(f"document.querySelectorAll('.card:not([hidden]) .cut').length > 0 && {CARD.format(number)}.isShown === false", f"call {number} is not asked")
        focus_first(test)
        if number == 7:
            cut(test, [1])
        give(test, number, answer)
        press_button(test, "check this answer")
        test.until(f"{CARD.format(number)}.isShown", f"call {number} is not explained")
    at_rest(test)
    wanted = {str(number): [1] if number == 7 else cuts_of(read) for number, read in READ[NAME].items()}
    test.wanted(browser.value(CUTS) == wanted, f"by keys the bits are cut as {browser.value(CUTS)}")
    test.wanted(browser.value(MARKING).startswith("8 of 8 right") and "Bits: 7 of 8 read right." in browser.value(MARKING), f"it is told {browser.value(MARKING)!r}")


def told_and_seen(test, _):
    """A screen reader is told the bits and each gap, and whether it is cut; a gap is as large as a finger needs, and nothing overruns at any size, in
    both themes."""
    browser = test.browser
    test.forget()
    open_exercise(test, NAME)
    browser.value(f"{CARD.format(6)}.cutting.gaps[2].click()")
    nodes = tree(test)
    groups = [value(node, "name") for node in nodes if value(node, "role") == "group"]
    test.wanted("Call 6: where does each part of index 101101011 end?" in groups, f"the groups are {groups}")
    pressed = [it["value"]["value"] for node in nodes if value(node, "name") == "cut behind bit 3" for it in node["properties"] if it["name"] == "pressed"]
    test.wanted(pressed.count("true") == 1 and len(pressed) == 8, f"the gaps behind bit 3 are told as {pressed}")
    for width, height in SIZES_OF_WINDOWS:
        browser.resize(width, height)
        least = browser.value("Math.min(...[...document.querySelectorAll('.cut')].map((it) => Math.min(it.offsetWidth, it.offsetHeight)))")
        test.wanted(least >= 24, f"at {width} a gap is {least} pixels wide or high")
    at_each_size(test, "bits", BESIDE)


CHECKS = (clicked_apart, kept_over_a_reload, by_keys, told_and_seen)
