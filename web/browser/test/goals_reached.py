"""Exercises with a goal: each is reached by pointing and by typing; what does not reach it is told, and what is no call of the reader's is refused."""
import json
import tomllib

from asked_by_hand import ask_by_keys
from drawn import at_each_size
from nothing_lost import EDITOR
from sheets import SHEET
from tester import TOP, pick
from what_if import LISTS, button, centre, choose, root

GOALS = TOP / "tests" / "answers" / "goals"
FRAME = "document.querySelector('.beside iframe')"
INSIDE = f"{FRAME}.contentDocument"
FORM = f"{INSIDE}.getElementById('what-if')"
GOAL = "sel4sim.page.exercise.goal"
STATUS = "(document.querySelector('.marking.of-goal [role=status]')?.textContent ?? '')"
MINE = "document.querySelector('.mine textarea')"
CARDS = "[...document.querySelectorAll('.mine .card')].map((it) => [it.value, it.querySelector('.answered b').textContent])"
POSITION = f"({FRAME}?.contentDocument?.getElementById('position')?.textContent ?? '')"
# For each exercise the calls by which it is reached: the thread, the operation, the slot, the slot to fill, and the fields.
REACHED = {
    "13_a_word_for_the_client": ((2048, "copy", root(4), 16384 + 2 * 32, {}), (2048, "set_space", root(3), root(8), {"badge or guard": "126"}),
                                 (2048, "recv", root(4), None, {})),
    "14_room_for_a_cnode": ((2048, "revoke", root(6), None, {}), (2048, "move", root(7), root(10), {})),
    "15_take_one_back": ((2048, "revoke", root(11), None, {}),),
    "16_bens_badge": ((2048, "mint", root(5), root(9), {"badge or guard": "100"}), (6144, "send", root(9), None, {}), (2048, "recv", root(5), None, {})),
}


def names():
    return sorted(path.stem for path in GOALS.glob("*.toml"))


def text_of(name, folder=GOALS):
    return (folder / f"{name}.toml").read_text()


def typed_of(name):
    """The calls that the key has more than its exercise, as lines."""
    exercise, key = text_of(name).splitlines(), text_of(name, GOALS / "keys").splitlines()
    return [line.strip() for line in key if line not in exercise]


def given_of(name):
    """How many calls are made already."""
    return len(tomllib.loads(text_of(name))["call"]) - 1


def open_goal(test, name):
    """Opens an exercise with a goal as one who was never at it."""
    test.browser.value(f"localStorage.removeItem('sel4sim.exercises'), sel4sim.page.openExample('exercises', {json.dumps(name)})")
    given = given_of(name)
    test.until(f"{GOAL}.isOpen && sel4sim.page.exercise.text === {json.dumps(text_of(name))} && {POSITION} === 'call {given} of {given}' && {CARDS}.length === 0",
               f"{name} does not open")


def point(test, thread, operation, slot, to, fields):
    """Asks for a call in the form beside the sheet, and waits until it is one of the reader's."""
    count = test.browser.value(f"{CARDS}.length")
    choose(test, "operation", operation, FORM)
    for label, value in zip(LISTS, (str(thread), operation, str(slot), to and str(to))):
        if value is not None:
            choose(test, label, value, FORM)
    for label, value in fields.items():
        choose(test, label, value, FORM)
    test.browser.value(f"{button('try it', FORM)}.click()")
    test.until(f"{CARDS}.length === {count + 1}", f"{operation} is not taken: {test.browser.value(STATUS)}")


def is_reached_in(test, count, name, how):
    test.until(f"{STATUS}.startsWith('✓ Reached, in {count} call')", f"{name} is not reached {how}: {test.browser.value(STATUS)}")
    test.wanted(test.browser.value("document.querySelector('.goal .tag.met') !== null"), f"{name}: the goal is not marked as reached {how}")


def is_reached(test, name, count, how):
    is_reached_in(test, count, name, how)
    last = given_of(name) + count + 1
    test.until(f"{POSITION} === 'call {last} of {last}'", f"{name}: the steps do not show the goal's call {how}: {test.browser.value(POSITION)}")
    test.wanted(not any(reply.startswith("refused") for _, reply in test.browser.value(CARDS)), f"{name}: calls are refused {how}")


def type_calls(test, typed):
    """Types calls in place of those before, and waits until they were run."""
    test.browser.value(f"(() => {{ {MINE}.value = {json.dumps(typed)}; {MINE}.dispatchEvent(new Event('input')); }})()")
    test.until(f"{GOAL}.timer === null && !sel4sim.page.program.isRunning", f"{typed!r} is not run")


def by_pointing(test, _):
    """Each is reached by calls that are asked for in the drawings; before, the goal's call is told with its reply; the editor stays as it is; the row of
    exercises has the mark, and the next one follows."""
    test.forget()
    for at, name in enumerate(names()):
        open_goal(test, name)
        told = test.browser.value(STATUS)
        test.wanted(told.startswith(f"Not reached: call {given_of(name) + 1} is answered:"), f"{name}: at first it is told {told!r}")
        test.wanted(test.browser.value(f"!{FORM}.hidden && {FORM}.querySelector('b').textContent") == "your call", f"{name}: no call can be asked for")
        test.wanted(not test.browser.value("document.querySelector('.sheet .because')"), f"{name}: the reason stands in the sheet")
        for count, call in enumerate(REACHED[name]):
            test.wanted(test.browser.value(STATUS).startswith("Not reached"), f"{name} is reached by {count} calls")
            point(test, *call)
        is_reached(test, name, len(REACHED[name]), "by pointing")
        test.wanted(test.browser.value(f"{EDITOR}.text") == text_of(name), f"{name}: the calls stand in the editor")
        story = test.browser.value(f"{GOAL}.story")
        test.wanted(story == f"reached, calls {len(REACHED[name])}, tries {len(REACHED[name])}", f"{name}: the story is {story!r}")
        test.wanted(test.browser.value("document.querySelector('.goal .because')?.textContent.length > 40"), f"{name}: no reason is told")
        row = test.browser.value("document.querySelector('.course [aria-current]').textContent")
        test.wanted(row == f"{13 + at} ✓", f"{name}: the row of exercises has {row!r}")
        is_next = test.browser.value("[...document.querySelectorAll('.marking button')].find((it) => it.textContent === 'next exercise').hidden")
        test.wanted(is_next == (name == names()[-1]), f"{name}: the way to the next one is hidden: {is_next}")


def by_typing(test, _):
    """Each is reached by the lines of its key, typed; with a line fewer it is not. What is typed stays over a reload, and what is saved is a set-up in
    which the goal is met, which is opened again as what was handed in."""
    browser = test.browser
    test.forget()
    for name in names():
        open_goal(test, name)
        lines = typed_of(name)
        browser.value(f"{MINE}.focus()")
        for count, line in enumerate(lines, 1):
            test.wanted(browser.value(STATUS).startswith("Not reached"), f"{name} is reached by fewer lines")
            # In a list the comma behind a call need not be typed.
            browser.insert(line.removesuffix(",") + "\n")
            test.until(f"{CARDS}.length === {count}", f"{name}: {line} is not taken: {browser.value(STATUS)}")
        is_reached(test, name, len(lines), "by typing")
    browser.reload()
    test.until(f"{STATUS}.startsWith('✓ Reached')", "a reload loses the calls")
    story = browser.value(f"{GOAL}.story")
    saved = browser.value(f"(() => {{ let saved; const {{ page }} = sel4sim; const {{ saveText }} = page; page.saveText = (text, name) => {{ saved = [text, name]; }};"
                          f" {GOAL}.save(); page.saveText = saveText; return saved; }})()")
    test.wanted(saved[1] == f"{name}.answers.toml" and saved[0].endswith(f"\n\n# answers: {story}\n"), f"what is saved is {saved[1]}, {saved[0][-60:]!r}")
    test.wanted(tomllib.loads(saved[0]) == tomllib.loads(text_of(name, GOALS / "keys")), "what is saved is not the key")
    answer = test.run_bytes([["marks"]], "saved.toml", saved[0].encode())[0]
    test.wanted(answer["status"] == 0, f"what is saved is marked with status {answer['status']}")
    browser.value("localStorage.removeItem('sel4sim.exercises')")
    browser.value(f"sel4sim.page.open({json.dumps(saved[0])}, 'ann.toml')")
    test.until(f"{STATUS}.startsWith('✓ Reached')", "what was handed in is not shown")
    test.wanted(f"Handed in: {story}." in browser.value(f"{SHEET}.textContent"), "what was handed in is not told as such")
    type_calls(test, lines[0])
    browser.reload()
    test.until(f"{GOAL}.isOpen && {CARDS}.length === 1", "a reload takes what was changed of a file that was handed in")
    changed = saved[0].replace("cap = \"@ep\", expect", "cap = 5, expect")
    browser.value(f"sel4sim.page.open({json.dumps(changed)}, 'ben.toml')")
    test.until(f"{STATUS}.startsWith('✓ Reached') && {SHEET}.textContent.includes('This is none of the exercises in this page')", "a changed exercise is told as one of the course")


# An exercise that nobody has, whose calls stand in tables.
IN_TABLES = """# exercise: Mine
# Make the send arrive.
format = 2
memory_bits = 16
root_radix = 4
threads = 2
endpoints = 1

# your calls

# The first thread sends.
[[call]]
thread = 2048
op = "nbsend"
cap = 4
expect = "delivered 6144"
"""


def other_text(test, _):
    """What is no call, is refused or comes from another thread reaches nothing: it is told, and what was drawn stays."""
    browser, name = test.browser, "16_bens_badge"
    open_goal(test, name)
    for typed, told in (("{ thread = ", ""), ("] \nnames = [", ""), ('{ thread = "@server", op = "reach", cap = 1 },', "op"), ("]\nuntyped = [", ""),
                        ('{ thread = "@ann", op = "nbsend", cap = 5 }', "Call 3: this thread makes none of your calls")):
        type_calls(test, typed)
        said = browser.value(STATUS)
        test.wanted(told in said and not said.startswith("Not reached") and "✓" not in said, f"{typed!r} is told as {said!r}")
    test.wanted(browser.value(f"{POSITION}") == "call 3 of 3", f"the steps are at {browser.value(POSITION)}")
    browser.value(f"sel4sim.page.open({json.dumps(IN_TABLES)}, 'mine.toml')")
    test.until(f"{GOAL}.isOpen && {STATUS}.startsWith('Not reached: call 1')", f"an exercise with calls in tables is told as {browser.value(STATUS)!r}")
    type_calls(test, "[[untyped]]\nbase = 16384\nbits = 12\n")
    test.wanted(browser.value(STATUS).startswith("Calls alone can stand here"), f"a region more is told as {browser.value(STATUS)!r}")
    type_calls(test, "")
    point(test, 4096, "recv", root(4), None, {})
    is_reached_in(test, 1, "Mine", "in tables")


def taken_back(test, _):
    """A call is made behind the one that is shown; each can be taken back, in the drawings and on the sheet; to begin anew takes all; the set-up itself has them, and
    a link leads back to the sheet."""
    browser, name = test.browser, "16_bens_badge"
    open_goal(test, name)
    mint, send, recv = REACHED[name]
    point(test, *mint)
    point(test, *recv)
    browser.value(f"{INSIDE}.getElementById('back').click()")
    test.until(f"{POSITION} === 'call 3 of 4'", "there is no way back to the first call")
    point(test, *send)
    test.until(f"{STATUS}.startsWith('✓ Reached, in 3 calls')", f"a call between others is not made there: {browser.value(CARDS)}")
    operations = browser.value("[...document.querySelectorAll('.mine .pairs b')].map((it) => it.textContent)")
    test.wanted(operations == ["2048 mint", "6144 send", "2048 recv"], f"the calls are {operations}")
    marked = browser.value(f"[...{INSIDE}.querySelectorAll('.call.branch')].map((it) => Number(it.dataset.number))")
    test.wanted(marked == [3, 4, 5], f"in the steps the calls {marked} are marked as those of the reader")
    browser.value("[...document.querySelectorAll('.mine .card')].find((it) => it.value === 4).querySelector('.outcome p:last-child .link').click()")
    test.until(f"{STATUS}.startsWith('Not reached') && {CARDS}.length === 2", "a call is not taken back on the sheet")
    browser.value(f"{INSIDE}.getElementById('last').click()")
    test.until(f"!{button('take back', FORM)}.hidden && {button('keep', FORM)}.hidden", "no call can be taken back in the drawings")
    browser.value(f"{button('take back', FORM)}.click()")
    test.until(f"{CARDS}.length === 1", "a call is not taken back in the drawings")
    test.press_with_mouse("the set-up itself")
    test.until("sel4sim.page.exercise.isOpen === false && document.getElementById('status').textContent !== ''", "the set-up itself is not shown")
    test.settle()
    test.wanted("op = \"mint\"" in browser.value(f"{EDITOR}.text.split('# your calls')[1]"), "the set-up itself has no calls of its reader")
    test.click("#notice button")
    test.until(f"{GOAL}.isOpen && {CARDS}.length === 1", "there is no way back to the sheet")
    test.press_with_mouse("begin anew")
    test.until(f"{CARDS}.length === 0 && {MINE}.value === ''", "to begin anew keeps calls")
    pick(test, "examples", "send_then_receive")


def each_by_keys(test, _):
    """Each is reached by keys alone, from the title of its sheet on: Tab leads through the sheet into the form."""
    browser = test.browser
    test.forget()
    for name in names():
        open_goal(test, name)
        browser.value(f"{SHEET}.querySelector('h1').focus()")
        for count, call in enumerate(REACHED[name], 1):
            if count == 1:
                press_to(test, f"{INSIDE}.activeElement?.getAttribute('aria-label') === 'operation'", "the operations")
            else:
                to_operations(test)
            ask_by_keys(test, call, INSIDE)
            test.until(f"{CARDS}.length === {count}", f"{name}: by keys {call[1]} is not taken: {browser.value(STATUS)}")
        is_reached(test, name, len(REACHED[name]), "by keys")


def to_operations(test):
    """Goes back with Shift and Tab to the list of operations."""
    for _ in range(20):
        if test.browser.value(f"{INSIDE}.activeElement?.getAttribute('aria-label') === 'operation'"):
            return
        test.browser.press("Tab", shift=True)
    test.say("no Tab leads back to the operations")


def each_by_hand(test, _):
    """Each is reached by a finger on a phone, and by the mouse alone in a wide window: thread and slots are pressed in the drawings."""
    browser = test.browser
    for width, height, press, how in ((390, 844, browser.tap_at, "by a finger"), (1280, 800, browser.click_at, "by the mouse")):
        browser.resize(width, height)
        browser.call("Emulation.setTouchEmulationEnabled", enabled=width < 400)
        for name in names():
            open_goal(test, name)
            for count, call in enumerate(REACHED[name], 1):
                press_call(test, press, call)
                test.until(f"{CARDS}.length === {count}", f"{name}: {how} {call[1]} is not taken: {browser.value(STATUS)}")
            is_reached(test, name, len(REACHED[name]), how)
    browser.call("Emulation.setTouchEmulationEnabled", enabled=False)
    browser.resize_back()


def press_call(test, press, call):
    """Makes a call by presses in the drawings and on the button below them; a list itself is drawn by the browser, and chosen in."""
    thread, operation, slot, to, fields = call
    test.browser.value(f"{FRAME}.scrollIntoView()")
    choose(test, "operation", operation, FORM)
    for wanted in (f"#threads [data-thread='{thread}']", *(f"#spaces [data-slot='{it}']" for it in (slot, to) if it is not None)):
        press(*centre(test, f"{INSIDE}.querySelector({json.dumps(wanted)})", FRAME))
    for label, given in fields.items():
        choose(test, label, given, FORM)
    press(*centre(test, button("try it", FORM), FRAME))


def pointed(test, _):
    """By the mouse in a wide window and by a finger on a phone; at any size nothing overruns its window, in both themes."""
    browser, name = test.browser, "15_take_one_back"
    for width, height, theme, press in ((1280, 800, "light", browser.click_at), (390, 844, "dark", browser.tap_at)):
        browser.resize(width, height)
        browser.call("Emulation.setTouchEmulationEnabled", enabled=width < 400)
        browser.call("Emulation.setEmulatedMedia", features=[{"name": "prefers-color-scheme", "value": theme}])
        open_goal(test, name)
        choose(test, "operation", "revoke", FORM)
        browser.value(f"{FRAME}.scrollIntoView()")
        press(*centre(test, f"{INSIDE}.querySelector('#forest [data-slot=\"{root(11)}\"] > .node')", FRAME))
        test.until(f"{FORM}.querySelector('.asked').textContent.includes('root[11]')", f"at {width} a slot that is pressed is not taken")
        press(*centre(test, button("try it", FORM), FRAME))
        is_reached(test, name, 1, f"at {width}")
    browser.call("Emulation.setTouchEmulationEnabled", enabled=False)
    at_each_size(test, "an exercise with a goal", FRAME)


def press_to(test, holds, what):
    """Goes on with Tab until something holds."""
    for _ in range(60):
        if test.browser.value(holds):
            return
        test.browser.press("Tab")
    test.say(f"no Tab leads to {what}")


def by_keys(test, _):
    """By keys alone: Tab leads from the title to the field of the calls and on into the form; what comes of a call is spoken."""
    browser, name = test.browser, "15_take_one_back"
    open_goal(test, name)
    browser.value(f"{SHEET}.querySelector('h1').focus()")
    press_to(test, f"document.activeElement === {MINE}", "the calls")
    inside = f"({INSIDE}.activeElement ?? document.body)"
    press_to(test, f"{inside}.getAttribute('aria-label') === 'operation'", "the operations")
    browser.value(f"{inside}.value = 'delete'")
    browser.press("ArrowDown")
    test.wanted(browser.value(f"{inside}.value") == "revoke", f"an arrow leads to {browser.value(f'{inside}.value')}")
    browser.press("Tab")
    labels = browser.value(f"[...{inside}.options].map((it) => it.value)")
    for _ in range(len(labels)):
        if browser.value(f"{inside}.value") == str(root(11)):
            break
        browser.press("ArrowDown" if labels.index(str(root(11))) > labels.index(browser.value(f"{inside}.value")) else "ArrowUp")
    press_to(test, f"{inside}.textContent === 'try it'", "what makes the call")
    browser.press(" ")
    is_reached(test, name, 1, "by keys")
    live = browser.value(f"[document.querySelector('.marking [role=status]') !== null, {INSIDE}.getElementById('said').getAttribute('aria-live')]")
    test.wanted(live == [True, "polite"], f"what comes of a call is told as {live}")
    browser.value("sel4sim.page.openExample('exercises', '09_badges')")
    test.until(f"sel4sim.page.exercise.name === '09_badges.toml' && !{SHEET}.inert && {POSITION} !== '' && {INSIDE}.getElementById('ask').hidden", "no exercise with questions comes")
    test.wanted(browser.value(f"{FORM}.hidden"), "in an exercise with questions calls can be asked for")
    pick(test, "examples", "send_then_receive")


CHECKS = (by_pointing, by_typing, other_text, taken_back, pointed, each_by_hand, by_keys, each_by_keys)
