"""What if, as it is asked in a class: each of the fifteen operations by keys alone and by a finger alone, what was beside what would be, and the lecture
on revocation without a line of TOML."""
import json
import tomllib

from drawn import at_call, at_each_size, in_themes
from gives_nothing_away import answer_all, at_rest
from hearing import value
from nothing_lost import EDITOR, FRAME, INSIDE
from sheets import answers_of
from what_if import ASKED, EACH, FORM, POSITION, SAID, ask, button, centre, choose, open_form, root

WAS = f"{INSIDE}.getElementById('was')"
REPLY = f"{INSIDE}.querySelector('#said .reply')?.textContent"
MOST_TABS = 40


def asked_anew(test):
    """The steps of an example behind its boot, with an empty form."""
    at_call(test, "examples", "send_then_receive", 0)
    test.browser.value(f"{FORM}.hidden || {button('close')}.click(), sel4sim.page.steps.focus()")


def tab_to(test, holds, what, inside=INSIDE):
    """Goes on with Tab until something holds of the element that has the focus, `it`."""
    for _ in range(MOST_TABS):
        if test.browser.value(f"(({{ activeElement: it }}) => it !== null && {holds})({inside})"):
            return
        test.browser.press("Tab")
    test.say(f"no Tab leads to {what}")


def choose_by_keys(test, wanted, inside=INSIDE):
    """Chooses in the list that has the focus, by arrows."""
    active = f"{inside}.activeElement"
    at, to = test.browser.value(f"[{active}.selectedIndex, [...{active}.options].findIndex((it) => it.value === {json.dumps(wanted)})]")
    for _ in range(abs(to - at)):
        test.browser.press("ArrowDown" if to > at else "ArrowUp")
    test.wanted(test.browser.value(f"{active}.value") == wanted, f"arrows do not choose {wanted}")


def fill_by_keys(test, label, given, inside=INSIDE):
    """Gives a field of the form what it is to have: a box to tick, a list, or a text."""
    name = label.replace("_or_", " or ")
    tab_to(test, f"[it.getAttribute('aria-label'), it.value].includes({json.dumps(name)})", name, inside)
    kind = test.browser.value(f"{inside}.activeElement.type")
    if kind == "checkbox":
        if test.browser.value(f"{inside}.activeElement.checked") != given:
            test.browser.press(" ")
    elif kind == "select-one":
        choose_by_keys(test, given, inside)
    else:
        test.browser.insert(given)


def ask_by_keys(test, call, inside=INSIDE):
    """Asks for a call by keys alone; the focus is on the list of operations, behind that of the threads."""
    thread, operation, slot, to, fields = call
    test.browser.press("Tab", shift=True)
    choose_by_keys(test, str(thread), inside)
    test.browser.press("Tab")
    choose_by_keys(test, operation, inside)
    for label, wanted in (("slot", slot), ("slot to fill", to)):
        if wanted is not None:
            tab_to(test, f"it.getAttribute('aria-label') === {json.dumps(label)}", label, inside)
            choose_by_keys(test, str(wanted), inside)
    rights = {right: True for right in "wrgp"} if operation in ("copy", "mint") else {}
    # The fields come in the order in which they are drawn: first the rights.
    for label, given in sorted({**rights, **fields}.items(), key=lambda it: len(it[0]) > 1):
        fill_by_keys(test, label, given, inside)
    tab_to(test, "it.textContent === 'try it'", "what asks", inside)
    test.browser.press(" ")


def each_by_keys(test, _):
    """Each operation by keys alone: a key opens the form, Tab and arrows fill it, the space bar asks; what it does is told by the live region, and a step
    back, by its key, leaves it."""
    browser = test.browser
    asked_anew(test)
    text = browser.value(f"{EDITOR}.text")
    for *call, reply, told in EACH:
        operation = call[1]
        browser.value("sel4sim.page.steps.focus()")
        browser.press("i")
        test.until(f"!{FORM}.hidden && {INSIDE}.activeElement.getAttribute('aria-label') === 'operation'", "the key does not open what if")
        ask_by_keys(test, call)
        test.until(f"{POSITION} === 'call 1 of 1'", f"{operation}: by keys nothing is run: {browser.value(ASKED)}")
        got = browser.value(f"[{REPLY}, {SAID}]")
        test.wanted(got[0] == reply and told in got[1] and got[1].startswith("what if 1"), f"{operation} by keys: {got}, and not {reply}, {told}")
        test.wanted(browser.value(f"{INSIDE}.getElementById('said').getAttribute('aria-live')") == "polite", f"{operation} is not told")
        browser.press("ArrowLeft")
        test.until(f"{POSITION} === 'boot, 2 calls'", f"{operation}: a key does not lead back")
        tab_to(test, "it.textContent === 'close'", "what closes")
        browser.press(" ")
    test.wanted(browser.value(f"{EDITOR}.text") == text, "what is asked for by keys changes the set-up")


def tap(test, expression):
    test.browser.tap_at(*centre(test, expression))


def each_by_touch(test, _):
    """Each operation by a finger on a phone: the thread, the slot and the one to fill are pressed in the drawings, and so are the buttons."""
    browser = test.browser
    browser.resize(390, 844)
    browser.call("Emulation.setTouchEmulationEnabled", enabled=True)
    asked_anew(test)
    browser.value("sel4sim.page.lecture.project(true)")
    if not browser.value(f"{INSIDE}.body.hasAttribute('data-more')"):
        tap(test, f"{INSIDE}.getElementById('more')")
    for thread, operation, slot, to, fields, reply, told in EACH:
        tap(test, f"{INSIDE}.getElementById('ask')")
        test.until(f"!{FORM}.hidden", "a finger does not open what if")
        # The list itself is drawn by the browser.
        choose(test, "operation", operation)
        tap(test, f"{INSIDE}.querySelector(\"#threads [data-thread='{thread}']\")")
        for wanted in (slot, to):
            if wanted is not None:
                tap(test, f"{INSIDE}.querySelector(\"#spaces [data-slot='{wanted}']\")")
        rights = {right: True for right in "wrgp"} if operation in ("copy", "mint") else {}
        for label, given in {**rights, **fields}.items():
            choose(test, label.replace("_or_", " or "), given)
        tap(test, button("try it"))
        test.until(f"{POSITION} === 'call 1 of 1'", f"{operation}: by a finger nothing is run: {browser.value(ASKED)}")
        got = browser.value(f"[{REPLY}, {SAID}]")
        test.wanted(got[0] == reply and told in got[1], f"{operation} by a finger: {got}, and not {reply}, {told}")
        tap(test, button("take back"))
        test.until(f"{POSITION} === 'boot, 2 calls'", f"{operation}: a finger does not take it back")
        tap(test, button("close"))
    browser.value("sel4sim.page.lecture.project(false)")
    browser.call("Emulation.setTouchEmulationEnabled", enabled=False)
    browser.resize_back()


def kept_by_hand(test, _):
    """A branch of two is made by keys, and kept by them; and by a finger. The set-up then has both calls, and one undo takes them out."""
    browser = test.browser
    for how in ("keys", "finger"):
        asked_anew(test)
        text = browser.value(f"{EDITOR}.text")
        browser.value("sel4sim.page.steps.focus()")
        browser.press("i")
        for count, call in enumerate(((2048, "copy", root(4), root(9), {}), (2048, "revoke", root(4), None, {})), 1):
            test.until(f"!{FORM}.hidden", "what if does not open")
            tab_back_to_operations(test)
            ask_by_keys(test, call)
            test.until(f"{POSITION} === 'call {count} of {count}'", f"{call[1]} is not run")
        test.wanted(browser.value(f"[...{INSIDE}.querySelectorAll('.call.branch')].map((it) => it.dataset.number)") == ["1", "2"], "two calls are no branch")
        test.wanted(browser.value(f"{EDITOR}.text") == text, "a branch is in the set-up before it is kept")
        if how == "keys":
            tab_to(test, "it.textContent === 'keep'", "what keeps")
            browser.press(" ")
        else:
            browser.call("Emulation.setTouchEmulationEnabled", enabled=True)
            tap(test, button("keep"))
            browser.call("Emulation.setTouchEmulationEnabled", enabled=False)
        test.until(f"{POSITION} === 'call 2 of 4'", f"by {how} what is kept is not shown")
        operations = [call["op"] for call in tomllib.loads(browser.value(f"{EDITOR}.text"))["call"]]
        test.wanted(operations == ["copy", "revoke", "send", "recv"], f"by {how} the calls that are kept are {operations}")
        test.settle(0.6)
        browser.value(f"{EDITOR}.mirror.undo()")
        test.settle(0.6)
        test.wanted(browser.value(f"{EDITOR}.text") == text, f"by {how} what was kept cannot be undone")


def tab_back_to_operations(test):
    """Goes back with Shift and Tab to the list of operations."""
    for _ in range(MOST_TABS):
        if test.browser.value(f"{INSIDE}.activeElement?.getAttribute('aria-label') === 'operation'"):
            return
        test.browser.press("Tab", shift=True)
    test.say("no Tab leads back to the operations")


def at_sizes(test, _):
    """The form, what was asked for and what was beside it overrun no window, and can be read, at any size and in both themes."""
    at_call(test, "examples", "revocation_of_badged_copies", 7)
    open_form(test)
    choose(test, "operation", "mint")
    ask(test, 2048, "mint", root(5), root(13), badge_or_guard="77")
    at_each_size(test, "what if")
    test.browser.value(f"{button('take back')}.click()")


NODES = "[...{}.querySelectorAll('.node')].map((it) => it.textContent.replace(/\\s+/gu, ' ').trim())"


def beside_what_was(test, _):
    """Beside the forest of what is asked for stands that of as many of the set-up's own calls, with its sentence; at the end of the set-up the last one; it
    takes no presses, and goes when the branch is left. Projected the two are side by side, in both themes."""
    browser = test.browser
    at_call(test, "examples", "revocation_of_badged_copies", 8)
    own = browser.value(NODES.format(f"{INSIDE}.getElementById('forest')"))
    at_call(test, "examples", "revocation_of_badged_copies", 7)
    open_form(test)
    test.wanted(browser.value(f"{WAS}.hidden"), "what was is told before anything is asked for")
    ask(test, 2048, "delete", root(8))
    shown = browser.value(f"[{WAS}.hidden, {WAS}.textContent]")
    test.wanted(not shown[0] and "As it was" in shown[1] and "after call 8" in shown[1] and "revokes what was derived from root[8]" in shown[1] and "done" in shown[1],
                f"beside it stands {shown}")
    test.wanted(browser.value(NODES.format(WAS)) == own, "what was is drawn in another way than the set-up's own call")
    before = browser.value(f"{FORM}.querySelector('select[aria-label=slot]').value")
    browser.value(f"{WAS}.querySelector('[data-slot=\"160\"] > .node').click()")
    test.wanted(browser.value(f"{FORM}.querySelector('select[aria-label=slot]').value") == before, "a slot of what was is taken into the call")
    ask(test, 2048, "delete", root(9))
    test.wanted("after call 9" in browser.value(f"{WAS}.textContent"), "beside the second call stands not the second one of the set-up")
    browser.value(f"sel4sim.page.lecture.project(true), {INSIDE}.body.dataset.alone = 'forest'")
    for width, height in ((1280, 800), (1920, 1080)):
        browser.resize(width, height)
        places = browser.value(f"['forest', 'was'].map((id) => (({{ left, right, top }}) => [left, right, top])({INSIDE}.getElementById(id).getBoundingClientRect()))")
        test.wanted(places[0][1] <= places[1][0] and places[0][2] == places[1][2], f"at {width} what was stands not beside: {places}")
    for width, height in ((320, 256), (390, 844)):
        browser.resize(width, height)
        wide = browser.value(f"[{INSIDE}.documentElement.scrollWidth, {FRAME}.clientWidth]")
        test.wanted(wide[0] <= wide[1], f"at {width} what was overruns its window: {wide}")
    browser.resize_back()
    browser.value(f"delete {INSIDE}.body.dataset.alone, sel4sim.page.lecture.project(false)")
    in_themes(test, lambda theme: test.wanted(browser.value(f"!{WAS}.hidden"), f"{theme}: what was goes"))
    browser.value(f"sel4sim.page.steps.frame.contentDocument.getElementById('first').click()")
    test.until(f"{POSITION} === 'boot, 13 calls' && {WAS}.hidden", "what was stays when the branch is left")
    at_call(test, "examples", "send_then_receive", 2)
    open_form(test)
    ask(test, 2048, "delete", root(4))
    test.wanted("after call 2, the last one" in browser.value(f"{WAS}.textContent"), f"behind the last call stands {browser.value(f'{WAS}.textContent')!r}")


def free_play(test, _):
    """Once the answers of an exercise are shown, what if can be asked beside its sheet too: nothing is kept, the answers stay, and a link to what a call
    changed leads back to the run."""
    browser, frame = test.browser, "document.querySelector('.beside iframe')"
    inside, position = f"{frame}.contentDocument", f"{frame}?.contentDocument?.getElementById('position')?.textContent"
    form = f"{inside}.getElementById('what-if')"
    test.forget()
    answer_all(test, "06_whose_child", wrong=(min(answers_of("06_whose_child")),))
    test.press_with_mouse("mark my answers")
    test.until("document.querySelector('.card.wrong')", "nothing is marked")
    at_rest(test)
    test.wanted(browser.value(f"{inside}.getElementById('ask').hidden"), "what if can be asked before the answers are shown")
    test.press_with_mouse("show the answers")
    test.until(f"document.querySelector('.answered') && !{inside}.getElementById('ask').hidden", "what if cannot be asked once the answers are shown")
    at_rest(test)
    story, calls = browser.value("sel4sim.page.exercise.story"), browser.value("sel4sim.page.exercise.told.calls.length")
    browser.value(f"{inside}.getElementById('last').click()")
    test.until(f"{position} === 'call {calls} of {calls}'", "the steps do not go to the last call")
    browser.value(f"{inside}.getElementById('ask').click()")
    choose(test, "operation", "delete", form)
    choose(test, "slot", str(root(1)), form)
    browser.value(f"{button('try it', form)}.click()")
    test.until(f"{position} === 'call {calls + 1} of {calls + 1}'", "what if is not run beside a sheet")
    told = browser.value(f"[{inside}.getElementById('said').textContent, {button('keep', form)}.hidden, {button('take back', form)}.hidden, {inside}.getElementById('was').hidden]")
    test.wanted(told[0].startswith("what if") and told[1:] == [True, False, False], f"beside a sheet {told} is told")
    test.wanted(browser.value("sel4sim.page.exercise.story") == story, "what if changes what is handed in")
    browser.value("[...document.querySelectorAll('.card.asks .outcome .link')].at(-1).click()")
    test.until(f"{position}.endsWith(' of {calls}') && {inside}.getElementById('was').hidden", "a link to what a call changed leads not back to the run")


def told_to_a_reader(test, _):
    """In the accessibility tree the form is a part with a name, each list and field has its name, the call that would be made is a status, and what was
    is a part of its own."""
    browser = test.browser
    at_call(test, "examples", "send_then_receive", 1)
    open_form(test)
    choose(test, "operation", "mint")
    ask(test, 2048, "mint", root(4), root(9), badge_or_guard="77")
    frames = [it["frame"]["id"] for it in browser.call("Page.getFrameTree")["frameTree"].get("childFrames", [])]
    nodes = [node for frame in frames for node in browser.call("Accessibility.getFullAXTree", frameId=frame)["nodes"] if not node.get("ignored")]
    named = {(value(node, "role"), value(node, "name")) for node in nodes}
    for wanted in (("region", "What if"), ("combobox", "thread"), ("combobox", "operation"), ("combobox", "slot"), ("combobox", "slot to fill"),
                   ("textbox", "badge or guard"), ("button", "try it"), ("button", "keep"), ("button", "take back"), ("button", "close"), ("checkbox", "w"),
                   ("group", "rights"), ("region", "As it was"), ("region", "Derivation forest as it was, tree")):
        test.wanted(wanted in named, f"a reader is told no {wanted[0]} {wanted[1]!r}")
    test.wanted(any(value(node, "role") == "status" for node in nodes), "the call that would be made is no status")
    live = [node for node in nodes if any(it["name"] == "live" and it["value"].get("value") == "polite" for it in node.get("properties", []))]
    test.wanted(live, "no part is spoken where it changes")
    at_call(test, "examples", "guarded_address_space", 6)
    nodes = [node for frame in frames for node in browser.call("Accessibility.getFullAXTree", frameId=frame)["nodes"] if not node.get("ignored")]
    groups = [value(node, "name") for node in nodes if value(node, "role") == "group"]
    test.wanted("The way of index 363, in bits" in groups, f"the way of a word is told as {groups}")


def emptied(test):
    """The slots that are struck out in the forest."""
    return test.browser.value(f"[...{INSIDE}.querySelectorAll('#forest .node.emptied > b.code')].map((it) => it.textContent)")


def lecture_on_revocation(test, _):
    """The third lecture of docs/teaching.md, by keys and presses alone: the tree after five calls, the revoke that is first asked for, and what if at calls 7
    and 9, with a revoke of another slot and a delete in its place. No line of the set-up is touched."""
    browser = test.browser
    at_call(test, "examples", "revocation_of_badged_copies", 0)
    text = browser.value(f"{EDITOR}.text")
    browser.value("sel4sim.page.steps.focus()")
    browser.press("f")
    for _ in range(5):
        browser.press("ArrowRight")
    test.until(f"{POSITION} === 'call 5 of 13'", "the arrows do not lead to call 5")
    parents = browser.value(f"Object.fromEntries([...{INSIDE}.querySelectorAll('#forest [data-slot]')].map((it) =>"
                            " [it.dataset.slot, it.parentElement.closest('[data-slot]')?.dataset.slot ?? null]))")
    wanted = {root(8): root(5), root(9): root(5), root(10): root(8), root(11): root(9), root(12): root(8)}
    test.wanted(all(parents[str(slot)] == str(parent) for slot, parent in wanted.items()), f"after five calls the tree is {parents}")
    for key in ("h", "ArrowRight", "ArrowRight", "ArrowRight", "ArrowRight", "ArrowRight"):
        browser.press(key)
    test.until(f"{SAID}.includes('What does it change?') && {SAID}.startsWith('8 ')", f"the revoke is not asked for first: {browser.value(SAID)}")
    test.wanted(emptied(test) == [], "what goes is shown before it is asked for")
    browser.press("ArrowRight")
    test.until(f"{SAID}.startsWith('8 ') && !{SAID}.includes('What does it change?')", "what the revoke does is not shown")
    test.wanted(sorted(emptied(test)) == ["root[10]", "root[12]"], f"the revoke takes {emptied(test)}")
    for key in ("h", "ArrowLeft"):
        browser.press(key)
    test.until(f"{POSITION} === 'call 7 of 13'", "there is no way back to call 7")
    for behind, operation, slot, gone in ((7, "revoke", root(5), ["root[10]", "root[11]", "root[12]", "root[8]", "root[9]"]), (7, "revoke", root(9), ["root[11]"]),
                                          (7, "delete", root(8), ["root[8]"]), (9, "revoke", root(9), ["root[11]"]), (9, "delete", root(8), ["root[8]"])):
        browser.value(f"{FORM}.hidden || {button('close')}.click(), sel4sim.page.steps.go({behind})")
        test.until(f"{POSITION} === 'call {behind} of 13'", f"call {behind} is not shown")
        browser.press("i")
        test.until(f"!{FORM}.hidden", "the key does not open what if")
        choose(test, "operation", operation)
        node = f"{INSIDE}.querySelector(\"#forest [data-slot='{slot}'] > .node\")"
        browser.click_at(*centre(test, node))
        test.wanted(f"root[{slot // 32}]" in browser.value(ASKED), f"a press on root[{slot // 32}] is told as {browser.value(ASKED)}")
        browser.click_at(*centre(test, button("try it")))
        test.until(f"{POSITION} === 'call {behind + 1} of {behind + 1}'", f"{operation} of root[{slot // 32}] is not run")
        test.wanted(sorted(emptied(test)) == gone, f"behind call {behind}, {operation} of root[{slot // 32}] takes {sorted(emptied(test))}, and not {gone}")
        browser.click_at(*centre(test, button("take back")))
        test.until(f"{POSITION} === 'call {behind} of 13'", "what if is not taken back")
    for key in ("Escape", "Escape"):
        browser.value("sel4sim.page.steps.focus()")
        browser.press(key)
    test.wanted(browser.value(f"{EDITOR}.text") == text, "the lecture changes the set-up")


CHECKS = (each_by_keys, each_by_touch, kept_by_hand, at_sizes, beside_what_was, free_play, told_to_a_reader, lecture_on_revocation)
