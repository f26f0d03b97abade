"""What a screen reader is told, by chromium's accessibility tree, and what the keys do for a reader who sees nothing."""
import json

from nothing_lost import steps_come
from sheets import open_exercise
from tester import pick

EDITOR = "sel4sim.page.editor"


def tree(test):
    """The nodes of the accessibility tree that are not ignored."""
    return [node for node in test.browser.call("Accessibility.getFullAXTree")["nodes"] if not node.get("ignored")]


def value(node, part):
    return node.get(part, {}).get("value", "")


def live_texts(test):
    """The texts of the regions that are spoken where they change."""
    nodes = {node["nodeId"]: node for node in test.browser.call("Accessibility.getFullAXTree")["nodes"]}

    def below(node):
        yield value(node, "name") if value(node, "role") == "StaticText" else ""
        for child in node.get("childIds", []):
            if child in nodes:
                yield from below(nodes[child])

    return [" ".join(filter(None, below(node))) for node in nodes.values() if value(node, "role") in ("status", "alert")]


def focused(test):
    """The role and the name of what has the focus, also in the frame of the steps."""
    frames = [it["frame"]["id"] for it in test.browser.call("Page.getFrameTree")["frameTree"].get("childFrames", [])]
    nodes = [node for frame in frames for node in test.browser.call("Accessibility.getFullAXTree", frameId=frame)["nodes"]] + tree(test)
    have = [node for node in nodes if any(it["name"] == "focused" and it["value"].get("value") for it in node.get("properties", []))]
    return [(value(node, "role"), value(node, "name")) for node in have]


def chosen_tab(test):
    """The name of the tab that is told as the chosen one."""
    return [value(node, "name") for node in tree(test) if value(node, "role") == "tab"
            and any(it["name"] == "selected" and it["value"].get("value") for it in node.get("properties", []))]


def outcome_is_told(test, _):
    """The editor is a field of many lines, and how a run ended is told, with the first fault where there is one."""
    pick(test, "examples", "send_then_receive")
    test.click("#tab-report")
    test.settle()
    field = next((node for node in tree(test) if value(node, "name") == "Set-up" and value(node, "role") == "textbox"), {})
    lines = {it["name"]: it["value"].get("value") for it in field.get("properties", [])}
    test.wanted(lines.get("multiline") is True, f"the editor is told as {field.get('role')}, {lines}")
    test.wanted(any("1 of 1 expectations met" in it for it in live_texts(test)), f"how a run ended is not told: {live_texts(test)}")
    kept = test.browser.value(f"{EDITOR}.text")
    test.browser.value(f"{EDITOR}.text = {json.dumps(kept.replace('label', 'lable'))}")
    test.settle()
    test.wanted(any("did you mean" in it and "lable" in it for it in live_texts(test)), f"a fault is not told: {live_texts(test)}")
    test.browser.value(f"{EDITOR}.text = {json.dumps(kept)}")
    test.settle()


def call_is_told(test, _):
    """A key in the editor says what the call at the cursor was answered."""
    pick(test, "examples", "send_then_receive")
    for line, words in ((29, "call 2: delivered 6144 from 2048"), (19, "call 1: waiting"), (2, "No call is here.")):
        test.browser.value(f"{EDITOR}.mirror.focus()")
        test.browser.value(f"{EDITOR}.mirror.setCursor({line - 1}, 0)")
        test.browser.press("F2")
        test.until("document.getElementById('heard').textContent !== ''", "F2 says nothing")
        test.wanted(any(it.startswith(words) for it in live_texts(test)), f"at line {line} F2 says {test.text('heard')}")
        test.browser.value("document.getElementById('heard').textContent = ''")


def call_is_shown(test, _):
    """A finger on a sign of the margin shows what the call was answered, and why."""
    browser = test.browser
    pick(test, "mistakes", "send_without_write")
    test.click("#tab-report")
    test.settle()
    browser.value(f"{EDITOR}.mirror.scrollIntoView({{ line: {EDITOR}.lines - 1, ch: 0 }})")
    test.until("document.querySelector('.mark-missed')", "no call is marked as missed")
    x, y = browser.value("(({ x, y, width, height }) => [x + width / 2, y + height / 2])(document.querySelector('.mark-missed').getBoundingClientRect())")
    for kind in ("mousePressed", "mouseReleased"):
        browser.call("Input.dispatchMouseEvent", type=kind, x=x, y=y, button="left", clickCount=1)
    test.until("document.getElementById('heard').textContent !== ''", "a sign of the margin says nothing")
    shown = browser.value("document.getElementById('heard').getBoundingClientRect().height > 20")
    test.wanted(shown and "needs the right Write" in test.text("heard"), f"a sign of the margin shows {test.text('heard')!r}")


def panel_by_keys(test, _):
    """From a tab a key leads into what it shows, of the steps to their list of calls."""
    browser = test.browser
    pick(test, "examples", "send_then_receive")
    browser.value("document.getElementById('tab-report').focus()")
    browser.press("2")
    test.settle()
    steps_come(test, "send_then_receive")
    browser.press("ArrowDown")
    inside = "document.querySelector('#panel-steps iframe').contentDocument"
    told = [role for role, name in focused(test) if name.startswith(("Calls of the run", "The state after the call"))]
    test.wanted(told, f"no key leads from the tab to the steps, but to {focused(test)}")
    browser.press("ArrowRight")
    test.until(f"{inside}.getElementById('range').value === '1'", "the arrow keys do not step")
    browser.press("1")
    test.settle()
    browser.press("Enter")
    test.wanted(any("send" in name for _, name in focused(test)) and browser.value("document.activeElement.closest('#panel-report') !== null"),
                f"no key leads from the tab to the report, but to {focused(test)}")


def letters_off(test, _):
    """Keys of one letter can be turned off, on the page and in the steps, also over a reload."""
    browser = test.browser
    pick(test, "examples", "send_then_receive")
    browser.value("document.getElementById('tab-report').focus()")
    browser.press("2")
    test.settle()
    test.click("#letters")
    test.open()
    browser.value("document.getElementById('tab-steps').focus()")
    browser.press("1")
    test.wanted(chosen_tab(test) == ["steps"], f"a digit is a key, though it is turned off: it leads to {chosen_tab(test)}")
    browser.value("document.getElementById('keys').showModal()")
    box = [node for node in tree(test) if value(node, "role") == "checkbox" and value(node, "name") == "keys of one letter or digit"]
    ticks = [it["value"]["value"] for node in box for it in node["properties"] if it["name"] == "checked"]
    test.wanted(ticks == ["false"], f"that letters are no keys is told as {ticks}")
    browser.value("document.getElementById('keys').close()")
    inside = "document.querySelector('#panel-steps iframe').contentDocument"
    steps_come(test, "send_then_receive")
    browser.value(f"{inside}.getElementById('main').focus()")
    browser.press("f")
    test.wanted(browser.value(f"!{inside}.body.hasAttribute('data-alone')"), "a letter is a key of the steps, though it is turned off")
    test.click("#letters")
    browser.press("f")
    test.wanted(browser.value(f"{inside}.body.hasAttribute('data-alone')"), "a letter is no key of the steps any more")
    browser.press("Escape")
    test.click("#tab-report")
    test.settle()


def sheet_is_told(test, _):
    """Each field of an exercise is told with its call, and how many are answered."""
    test.forget()
    open_exercise(test, "04_retype")
    test.wanted([value(node, "name") for node in tree(test) if value(node, "role") == "main"] == ["Exercise"], "an exercise is not the main part of the page")
    fields = [value(node, "name") for node in tree(test) if value(node, "role") == "combobox"]
    test.wanted([f"Call {number}: what is it answered?" in fields for number in range(1, 12)] == [True] * 11, f"the fields are {fields}")
    test.wanted(any(it.startswith("0 of 11 answered") for it in live_texts(test)), f"how many are answered is not told: {live_texts(test)}")
    test.browser.value("sel4sim.page.leaveExercise()")
    test.settle()


CHECKS = (outcome_is_told, call_is_told, call_is_shown, panel_by_keys, letters_off, sheet_is_told)
