"""No answer of an exercise is shown but by "show the answers": not by a press too much, by a key, or by what its author wrote above a call."""
import json
import time

from nothing_lost import type_anew
from sheets import MARKING, READ, SHEET, answers_of, cuts_of, hides_replies, open_exercise, replies_of, text_of, wrong_for
from tester import BUTTON

NAME = "01_slots_and_words"
DIALOG = "document.querySelector('dialog[open]')"
BAR = "(({ value, max }) => [value, max])(document.querySelector('.marking progress'))"
# A window, and how many seconds lie between two presses: of a double click, and of one who presses again since nothing seemed to happen.
PRESSES = ((1280, 800, 0), (1280, 800, 0.05), (1280, 800, 0.15), (1280, 800, 0.4), (1920, 1080, 0.05), (390, 844, 0.05))


def answer_all(test, name, wrong=()):
    """Gives each answer, those of some calls wrong; bits that are asked for are read right."""
    open_exercise(test, name)
    for number, read in READ.get(name, {}).items():
        for at in cuts_of(read):
            test.browser.value(f"sel4sim.page.exercise.sheet.cards.get({number}).cutting.gaps[{at - 1}].click()")
    for number, answer in answers_of(name).items():
        given = wrong_for(answer) if number in wrong else answer
        test.browser.value(f"sel4sim.page.exercise.sheet.cards.get({number}).answer = {json.dumps(given)}")


def at_rest(test):
    """Waits until nothing is marked any more."""
    test.until("sel4sim.page.isAtRest && !sel4sim.page.program.isRunning && !document.querySelector('.marking').inert", "marking does not end")
    time.sleep(0.2)


def is_still_asked(test, name, when):
    """The sheet is open, and no reply stands anywhere."""
    test.wanted(test.browser.value("sel4sim.page.exercise.isOpen && sel4sim.page.exercise.state.stage !== 'shown'"), f"{when} the sheet is closed, or shown")
    hides_replies(test, name, answers_of(name), when)
    told = test.browser.value("document.getElementById('panel-report').innerText")
    test.wanted(not any(f"{number} {words}: {reply}" in told for number, (words, reply) in replies_of(name).items()), f"{when} the report tells replies")


def press_twice(test, pause):
    """Presses where "mark my answers" stands, and once more behind a pause, wherever that button is then."""
    left, top = test.browser.value(BUTTON.replace("WORDS", json.dumps("mark my answers")))
    test.browser.click_at(left, top, 1 if pause else 2)
    if pause:
        time.sleep(pause)
        test.browser.click_at(left, top)


def double_click(test, _):
    """Who presses "mark my answers" twice by the mouse, quickly or slowly, at any size of the window, gets the marks alone."""
    browser = test.browser
    for width, height, pause in PRESSES:
        browser.resize(width, height)
        marks_alone(test, pause, f"after two presses {pause} s apart at {width}")
    browser.resize_back()


def marks_alone(test, pause, when):
    """Two presses mark, and show no answer."""
    test.forget()
    answer_all(test, NAME, wrong=(2, 3))
    press_twice(test, pause)
    at_rest(test)
    is_still_asked(test, NAME, when)
    test.wanted(test.browser.value("document.querySelectorAll('.card.wrong').length") == 2, f"{when} nothing is marked")
    test.wanted(test.browser.value(f"{DIALOG} === null"), f"{when} it is asked whether to show the answers")


def double_click_in_firefox(test, _):
    """The same in a window of the size that it has."""
    for pause in (0, 0.05):
        marks_alone(test, pause, f"in firefox, after two presses {pause} s apart")


def double_click_all_right(test, _):
    """Where all is right, the second press leads to no other exercise: the marks stay in sight."""
    test.forget()
    answer_all(test, NAME)
    test.press_with_mouse("mark my answers", 2)
    test.until("document.querySelector('.answered')", "no answers are shown")
    at_rest(test)
    test.wanted(test.browser.value("sel4sim.page.exercise.name") == f"{NAME}.toml", "a second press opens the next exercise")


def escape_while_marking(test, _):
    """Escape while the program marks leaves the sheet as it is, and so does whatever else stops the run."""
    escape = "document.body.dispatchEvent(new KeyboardEvent('keydown', { key: 'Escape', bubbles: true, cancelable: true }))"
    for what, stop in (("Escape", escape), ("a stop", "sel4sim.page.stop()")):
        test.forget()
        answer_all(test, NAME, wrong=(2,))
        test.browser.value(f"(() => {{ document.querySelector('.marking .main').click(); {stop}; }})()")
        at_rest(test)
        is_still_asked(test, NAME, f"after {what} while it marks")
        test.wanted(test.browser.value("!document.querySelector('.marking .main').disabled || document.querySelector('.card.wrong') !== null"),
                    f"after {what} nothing can be marked")


def bar_tells_right_ones(test, _):
    """The bar is full where all is answered, and once it is marked it shows what is right."""
    test.forget()
    answer_all(test, NAME, wrong=(2, 3, 4))
    count = len(answers_of(NAME))
    test.wanted(test.browser.value(BAR) == [count, count], f"with all answers given the bar is at {test.browser.value(BAR)}")
    test.press_with_mouse("mark my answers")
    test.until("document.querySelector('.card.wrong')", "nothing is marked")
    at_rest(test)
    test.wanted(test.browser.value(BAR) == [count - 3, count], f"with three wrong the bar is at {test.browser.value(BAR)}")


def asks_before_it_shows(test, _):
    """"the set-up itself" asks first, and what is handed in tells that its report was looked at."""
    browser = test.browser
    test.forget()
    answer_all(test, NAME, wrong=(2,))
    for words in ("back to the questions", None):
        test.press_with_mouse("the set-up itself", 2)
        test.wanted(browser.value(f"{DIALOG} !== null"), "the set-up itself is shown unasked")
        is_still_asked(test, NAME, "before it is asked for")
        if words:
            test.press_with_mouse(words)
        else:
            browser.press("Escape")
        test.until(f"{DIALOG} === null", "the question stays")
        is_still_asked(test, NAME, "where it is not wanted")
        test.wanted("looked" not in browser.value("sel4sim.page.exercise.story"), "what was not looked at is told as looked at")
    test.press_with_mouse("the set-up itself")
    browser.value(f"[...{DIALOG}.querySelectorAll('button')].at(-1).click()")
    test.settle()
    test.wanted("expected" in test.text("panel-report"), "the set-up of an exercise is not run")
    test.click("#notice button")
    test.until(f"{SHEET}?.offsetParent !== null && {MARKING} !== ''", "there is no way back to the sheet")
    test.wanted(browser.value("sel4sim.page.exercise.story").endswith(", the report was looked at"), f"the story is {browser.value('sel4sim.page.exercise.story')!r}")


KEY = """# exercise: Mine
# A task.
format = 2
memory_bits = 16
root_radix = 4
threads = 2
endpoints = 1

# The first one asks for a message.
[[call]]
thread = 2048
op = "nbrecv"
cap = 4
expect = "empty"

# Nobody receives, so it waits.
[[call]]
thread = 2048
op = "send"
cap = 4
label = 1
expect = "waiting"

# The other one asks for a message, and is told the badge 0.
#> A sender was there.
[[call]]
thread = 4096
op = "recv"
cap = 4
expect = "delivered 6144 from 2048 to 4096 badge 0"
"""
TOLD = "[...document.querySelectorAll('#told-words li')].map((it) => [Number(it.querySelector('input').value), it.querySelector('.telling') !== null])"


def comments_are_told(test, _):
    """Who makes an exercise sees the comments that stand above its questions, first those that may tell an answer; one that is hidden
    becomes a reason."""
    browser = test.browser
    test.forget()
    browser.value(f"sel4sim.page.open({json.dumps(KEY)}, 'mine.toml')")
    test.settle()
    test.click("#share")
    test.until("document.getElementById('address').value !== ''", "no address is shared")
    test.wanted(browser.value("document.getElementById('told')?.offsetParent ?? null") is None, "comments are told before an exercise is made")
    test.click("#as-exercise")
    test.wanted(browser.value(TOLD) == [[2, True], [3, True], [1, False]], f"above the questions stand {browser.value(TOLD)}")
    test.wanted("2 comments may tell an answer" in test.text("told-warning"), f"the warning is {test.text('told-warning')!r}")
    test.wanted("so it waits" in test.text("told-words"), "the words of a comment are not told")
    whole = browser.value("sel4sim.page.sharing.text")
    test.wanted("\n# Nobody receives, so it waits.\n" in whole, "an exercise loses a comment unasked")
    browser.value("document.querySelector('#told-words input').click()")
    hidden = browser.value("sel4sim.page.sharing.text")
    test.wanted(hidden == whole.replace("# Nobody receives", "#> Nobody receives"), "a comment that is hidden is no reason")
    address = browser.value("(async () => { await sel4sim.page.sharing.draw(); return document.getElementById('address').value; })()")
    test.click("#shared form button:last-child")
    test.open(address)
    test.until(f"{SHEET}?.inert === false", "the address leads to no sheet")
    told = browser.value(f"{SHEET}.innerText")
    test.wanted("so it waits" not in told and "asks for a message" in told, "the sheet tells what was hidden")
    type_anew(test, text_of("examples", "send_then_receive"))


CHECKS = (double_click, double_click_all_right, escape_while_marking, bar_tells_right_ones, asks_before_it_shows, comments_are_told)
