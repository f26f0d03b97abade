"""What if: each of the fifteen operations, asked for in the steps by keys, by the mouse and by touch, while the set-up stays as it is."""
import json
import tomllib

from drawn import at_call
from nothing_lost import EDITOR, FRAME, INSIDE
from tester import pick

FORM = f"{INSIDE}.getElementById('what-if')"
POSITION = f"{INSIDE}.getElementById('position').textContent"
SAID = f"{INSIDE}.getElementById('said').textContent"
ASKED = f"{FORM}.querySelector('.asked').textContent"
LISTS = ("thread", "operation", "slot", "slot to fill")


def button(words, form=FORM):
    return f"[...{form}.querySelectorAll('button')].find((it) => it.textContent === {json.dumps(words)})"


def open_form(test):
    test.browser.value(f"{FORM}.hidden && {INSIDE}.getElementById('ask').click()")
    test.until(f"!{FORM}.hidden", "what if does not open")


def choose(test, label, value, form=FORM):
    """Chooses in a list of the form, or types into a field of it, as the keys do."""
    test.browser.value(f"(() => {{ const field = [...{form}.querySelectorAll('select, input')].find((it) => (it.getAttribute('aria-label') ?? it.value) === {json.dumps(label)});"
                       f" if (field.type === 'checkbox') field.checked = {json.dumps(value)}; else field.value = {json.dumps(value)};"
                       " field.dispatchEvent(new Event('input', { bubbles: true })); })()")


def ask(test, thread, operation, slot, to=None, **fields):
    """Asks for a call: its reply, its sentence and what it changed; or None where it cannot be asked for."""
    before = test.browser.value(POSITION)
    for label, value in zip(LISTS, (str(thread), operation, str(slot), to and str(to))):
        if value is not None:
            choose(test, label, value)
    for label, value in fields.items():
        choose(test, label.replace("_or_", " or "), value)
    if test.browser.value(f"{button('try it')}.disabled"):
        return None
    test.browser.value(f"{button('try it')}.click()")
    test.until(f"{POSITION} !== {json.dumps(before)} || {FORM}.querySelector('.asked.fault') !== null", f"{operation} is not run")
    return test.browser.value(f"[{INSIDE}.querySelector('#said .reply')?.textContent ?? null, {SAID}, {INSIDE}.getElementById('changed').textContent]")


def root(number):
    """The address of a slot of the root CNode."""
    return 32 * number


# The thread, the operation, the slot and the one to fill, the fields, and the reply and what is told: behind boot of a set-up with threads
# 2048 and 4096, an endpoint in slot 4 and memory in slot 5.
EACH = (
    (2048, "send", root(4), None, {"label": "3"}, "waiting", "label 3"),
    (2048, "nbsend", root(4), None, {}, "dropped", "without waiting"),
    (4096, "recv", root(4), None, {}, "waiting", "receives"),
    (4096, "nbrecv", root(4), None, {}, "empty", "receives"),
    (2048, "copy", root(4), root(9), {"g": False, "p": False}, "done", "no rights but wr--"),
    (2048, "mint", root(4), root(9), {"badge_or_guard": "77"}, "done", "with the badge 77"),
    (2048, "move", root(4), root(9), {}, "done", "root[9]"),
    (2048, "mutate", root(1), root(9), {"badge_or_guard": "60"}, "done", "root[9]"),
    (2048, "delete", root(4), None, {}, "done", "deletes root[4]"),
    (2048, "revoke", root(5), None, {}, "done", "derived from root[5]"),
    (2048, "cancel_badged", root(4), None, {}, "done", "with the badge of root[4]"),
    (2048, "retype", root(5), root(10), {"kind": "2", "count": "3"}, "done", "3 endpoints, in root[10..12]"),
    (2048, "set_space", root(3), root(1), {}, "done", "the CSpace root of thread 4096"),
    (2048, "suspend", root(3), None, {}, "done", "thread 4096"),
    (2048, "resume", root(3), None, {}, "done", "thread 4096"),
    # These are refused, which is the lesson.
    (2048, "send", root(5), None, {}, "refused 3", "IllegalOperation"),
    (2048, "send", root(12), None, {}, "refused 2", "InvalidCapability"),
    (2048, "copy", root(4), root(5), {}, "refused 8", "DeleteFirst"),
)


def each_operation(test, _):
    """Each of the fifteen, and some that are refused: the set-up stays as it is, and a step back leaves what was asked for."""
    browser = test.browser
    at_call(test, "examples", "send_then_receive", 0)
    text = browser.value(f"{EDITOR}.text")
    open_form(test)
    offered = browser.value(f"[...{FORM}.querySelectorAll('select')].find((it) => it.getAttribute('aria-label') === 'operation').options.length")
    test.wanted(offered == 15, f"{offered} operations are offered")
    for thread, operation, slot, to, fields, reply, told in EACH:
        choose(test, "operation", operation)
        rights = {right: True for right in "wrgp"} if operation in ("copy", "mint") else {}
        got = ask(test, thread, operation, slot, to, **{**rights, **fields})
        test.wanted(got and got[0] == reply and told in got[1], f"{operation}: {got}, and not {reply}, {told}")
        test.wanted(got and got[1].startswith("what if 1"), f"{operation} is not told as what is asked for: {got}")
        test.wanted(browser.value(f"{EDITOR}.text") == text, f"{operation} changes the set-up")
        test.wanted(browser.value(f"!{button('take back')}.hidden && !{button('keep')}.hidden"), f"{operation} asked for behind boot can be neither kept nor taken back")
        browser.value(f"{INSIDE}.getElementById('back').click()")
        test.until(f"{POSITION} === 'boot, 2 calls'", f"{operation}: a step back does not leave it")


def named_by_the_thread(test, _):
    """A slot is named as this thread names it: by the CNode that is nearest, by another word for another thread, or not at all."""
    browser = test.browser
    at_call(test, "examples", "guarded_address_space", 4)
    open_form(test)
    got = ask(test, 2048, "delete", 16512 + 3 * 32)
    test.wanted(got and got[0] == "done" and "16512[3]" in got[1], f"a slot behind two guards is deleted as {got}")
    test.wanted("cap = 9, index = 3, depth = 2" in browser.value(ASKED), f"a slot behind two guards is named as {browser.value(ASKED)}")
    at_call(test, "examples", "guarded_address_space", 1)
    open_form(test)
    for label, value in (("operation", "mint"), ("slot", str(root(8))), ("slot to fill", str(root(10))), ("badge or guard", "323")):
        choose(test, label, value)
    test.wanted("word = 323 (guard 101)" in browser.value(ASKED), f"a guard word is told as {browser.value(ASKED)}")
    choose(test, "slot", str(root(4)))
    test.wanted("word = 323" in browser.value(ASKED) and "guard 101" not in browser.value(ASKED), f"a badge is told as {browser.value(ASKED)}")
    at_call(test, "examples", "layout_of_three_components", 9)
    open_form(test)
    got = ask(test, 4096, "send", 16384 + 32)
    test.wanted(got and "cap = 1," in browser.value(ASKED) and "waiting" == got[0], f"the driver sends as {browser.value(ASKED)}: {got}")
    test.wanted(ask(test, 4096, "send", root(6)) is None and "cannot name that slot" in browser.value(ASKED),
                f"a slot that no word leads to is named as {browser.value(ASKED)}")


def by_which_thread(test, _):
    """A call is made, until a thread is chosen, by the one that makes the next call, where it is ready; of one that is not, the list says so."""
    browser = test.browser
    at_call(test, "examples", "revocation_of_badged_copies", 7)
    browser.value(f"{FORM}.hidden || {button('close')}.click()")
    open_form(test)
    threads = f"{FORM}.querySelector('select[aria-label=thread]')"
    shown = browser.value(f"[{threads}.value, [...{threads}.options].map((it) => it.textContent)]")
    test.wanted(shown == ["2048", ["2048 server", "4096 first (sending)", "6144 second (sending)"]], f"behind call 7 the threads are {shown}")
    choose(test, "thread", "4096")
    browser.value(f"{INSIDE}.getElementById('back').click()")
    test.until(f"{POSITION}.startsWith('call 6 ')", "there is no step back")
    test.wanted(browser.value(f"{threads}.value") == "4096", f"a step takes the thread that was chosen: {browser.value(f'{threads}.value')}")


def branch(test, _):
    """Several in a row are a branch, marked in the list of calls; the last is taken back, and what is kept becomes the set-up's own, which the editor
    can undo; the program's fault is told."""
    browser = test.browser
    for name, number, (thread, slot) in (("two_clients_by_badge", 4, (2048, root(5))), ("layout_of_three_components", 9, (4096, 16384 + 32))):
        at_call(test, "examples", name, number)
        text = browser.value(f"{EDITOR}.text")
        calls = tomllib.loads(text)["call"]
        open_form(test)
        got = ask(test, thread, "nbsend", slot, label="0x10000000000000")
        test.wanted(browser.value(f"{FORM}.querySelector('.asked.fault') !== null") and "label" in browser.value(ASKED), f"a label that is too long is told as {got}")
        for _ in range(2):
            ask(test, thread, "nbsend", slot, label="5")
        test.wanted(browser.value(POSITION) == f"call {number + 2} of {number + 2}", f"{name}: two calls are at {browser.value(POSITION)}")
        marked = browser.value(f"[...{INSIDE}.querySelectorAll('.call.branch')].map((it) => Number(it.dataset.number))")
        test.wanted(marked == [number + 1, number + 2], f"{name}: the calls {marked} are marked")
        browser.value(f"{button('take back')}.click()")
        test.until(f"{POSITION} === 'call {number + 1} of {number + 1}'", f"{name}: the last call is not taken back")
        test.wanted(browser.value(f"{EDITOR}.text") == text, f"{name}: what was asked for is in the set-up")
        browser.value(f"{button('keep')}.click()")
        test.until(f"{POSITION} === 'call {number + 1} of {len(calls) + 1}'", f"{name}: what is kept is not shown")
        kept = tomllib.loads(browser.value(f"{EDITOR}.text"))["call"]
        test.wanted(kept[:number] + kept[number + 1:] == calls and (kept[number]["op"], kept[number]["label"]) == ("nbsend", 5), f"{name}: kept is {kept[number]}")
        test.settle(0.6)
        browser.value(f"{EDITOR}.mirror.undo()")
        test.settle(0.6)
        test.wanted(browser.value(f"{EDITOR}.text") == text, f"{name}: what was kept cannot be undone")
        at_call(test, "examples", name, number)
        open_form(test)
        ask(test, thread, "nbsend", slot, label="5")
        browser.value(f"{button('take back')}.click()")
        test.until(f"{POSITION} === 'call {number} of {len(calls)}'", f"{name}: what is taken back does not lead to where it was asked for")


def centre(test, expression, frame=FRAME):
    """Where an element of the steps stands in the window, brought into sight."""
    return test.browser.value(f"(() => {{ const it = {expression}; it.scrollIntoView({{ block: 'center' }}); const [one, frame] = [it, {frame}].map((each) =>"
                              " each.getBoundingClientRect()); return [frame.left + one.left + one.width / 2, frame.top + one.top + one.height / 2]; })()")


def pointed(test, _):
    """By the mouse in a wide window and by a finger on a phone: a slot and the one to fill are pressed in the drawings, and so is a thread."""
    browser = test.browser
    for width, height, press in ((1280, 800, browser.click_at), (390, 844, browser.tap_at)):
        is_phone = width < 400
        browser.resize(width, height)
        browser.call("Emulation.setTouchEmulationEnabled", enabled=is_phone)
        at_call(test, "examples", "two_clients_by_badge", 2)
        browser.value(f"sel4sim.page.lecture.project(true), {FORM}.hidden || {button('close')}.click()")
        browser.laid_out()
        if is_phone:
            press(*centre(test, f"{INSIDE}.getElementById('more')"))
        press(*centre(test, f"{INSIDE}.getElementById('ask')"))
        test.until(f"!{FORM}.hidden", f"at {width} what if does not open")
        choose(test, "operation", "move")
        choose(test, "slot to fill", "160")
        test.until(f"!{ASKED}.includes('root[11]')", f"at {width} the slot to fill is chosen before it is pressed")
        for wanted in ("#threads [data-thread='4096']", "#forest [data-slot='256'] > .node", "#spaces [data-slot='352']"):
            press(*centre(test, f"{INSIDE}.querySelector({json.dumps(wanted)})"))
        test.until(f"{ASKED}.includes('4096 first asks to move the slot root[8] for_first, into the slot root[11]')", f"at {width} what was pressed is told as {browser.value(ASKED)}")
        press(*centre(test, button("try it")))
        test.until(f"{SAID}.includes('thread 4096 first moves root[8]')", f"at {width} what was pressed is not run: {browser.value(SAID)}")
        wide = browser.value(f"[{INSIDE}.documentElement.scrollWidth, {FRAME}.clientWidth]")
        test.wanted(wide[0] <= wide[1], f"at {width} what if overruns its window: {wide}")
        browser.value("sel4sim.page.lecture.project(false)")
    browser.call("Emulation.setTouchEmulationEnabled", enabled=False)
    browser.resize_back()


def by_keys(test, _):
    """By keys alone: the key opens it, Tab and arrows choose, Enter asks; what is asked for is spoken; and an exercise has none of it."""
    browser = test.browser
    at_call(test, "examples", "send_then_receive", 1)
    choose(test, "operation", "send")
    browser.value(f"{FORM}.hidden || {button('close')}.click(), sel4sim.page.steps.focus()")
    browser.press("i")
    test.until(f"!{FORM}.hidden && {INSIDE}.activeElement.getAttribute('aria-label') === 'operation'", "the key does not open what if")
    for key in ("ArrowDown", "ArrowDown", "ArrowDown"):
        browser.press(key)
    test.wanted(browser.value(f"{INSIDE}.activeElement.value") == "nbrecv", f"arrows choose {browser.value(f'{INSIDE}.activeElement.value')}")
    browser.press("Tab")
    browser.value(f"(() => {{ const list = {INSIDE}.activeElement; list.value = '128'; list.dispatchEvent(new Event('input', {{ bubbles: true }})); }})()")
    for _ in range(4):
        if browser.value(f"{INSIDE}.activeElement.textContent") == "try it":
            break
        browser.press("Tab")
    browser.press(" ")
    test.until(f"{SAID}.startsWith('what if 2')", f"by keys there is {browser.value(SAID)}")
    live = browser.value(f"[{INSIDE}.getElementById('said').getAttribute('aria-live'), {FORM}.querySelector('.asked').getAttribute('role')]")
    test.wanted(live == ["polite", "status"], f"what is asked for is told to a screen reader as {live}")
    browser.value("sel4sim.page.openExample('exercises', '09_badges')")
    frame = "document.querySelector('.beside iframe')?.contentDocument"
    test.until(f"sel4sim.page.exercise.name === '09_badges.toml' && !document.querySelector('.sheet').inert && {frame}?.getElementById('ask')", "no exercise")
    test.until(f"{frame}.getElementById('ask').hidden", "an exercise can be asked what if")
    pick(test, "examples", "send_then_receive")


CHECKS = (each_operation, named_by_the_thread, by_which_thread, branch, pointed, by_keys)
