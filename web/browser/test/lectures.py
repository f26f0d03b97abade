"""What a lecture needs of the page: pictures to take away, the steps in the whole window, and the page in the frame of another."""
import json
import re
import xml.etree.ElementTree as ElementTree

from nothing_lost import EDITOR, FRAME, INSIDE, address_of, steps_come, type_anew
from tester import pick

# What is saved is caught: the texts of the files.
CATCH = f"""(() => {{
  const inside = {FRAME}.contentWindow;
  window.saved = [];
  inside.URL.createObjectURL = (blob) => {{ blob.text().then((text) => window.saved.push(text)); return "blob:none"; }};
  inside.HTMLAnchorElement.prototype.click = () => {{}};
}})()"""
# The words that are in sight in a part, but for the button that saves it and what a list offers.
WORDS = f"""(() => {{
  const part = {INSIDE}.getElementById(ID).cloneNode(true);
  part.querySelectorAll(".saver, .unseen, option:not([selected])").forEach((it) => it.remove());
  return [...part.querySelectorAll("*")].flatMap((it) => [...it.childNodes]).filter((it) => it.nodeType === Node.TEXT_NODE)
    .flatMap((it) => it.data.trim().split(/\\s+/u)).filter(Boolean);
}})()"""
PARTS = ("forest", "threads", "memory", "spaces")


def open_steps(test, topic, name, number):
    pick(test, topic, name)
    test.click("#tab-steps")
    test.settle()
    steps_come(test, name)
    for _ in range(number):
        test.browser.value(f"{INSIDE}.getElementById('on').click()")


def pictures(test, _):
    """Each part is saved as an SVG that has all its words, what was emptied struck out."""
    browser = test.browser
    for topic, name, number in (("examples", "revocation_of_badged_copies", 8), ("retype", "objects_in_an_untyped", 2), ("examples", "two_clients_by_badge", 4)):
        open_steps(test, topic, name, number)
        browser.value(CATCH)
        for at, part in enumerate(PARTS):
            browser.value(f"{INSIDE}.querySelector('#{part} .saver').click()")
            test.until(f"window.saved.length === {at + 1}", f"{name}: no picture of the {part} is saved")
            drawn = ElementTree.fromstring(browser.value(f"window.saved[{at}]"))
            title = next((it.text for it in drawn if it.tag.endswith("title")), "")
            test.wanted(drawn.get("role") == "img" and f"after call {number} of {name}" in title, f"{name}: the picture of the {part} has the title {title!r}")
            texts = [it for it in drawn if it.tag.endswith("text")]
            told = " ".join(it.text for it in texts)
            missing = [word for word in browser.value(WORDS.replace("ID", json.dumps(part))) if word not in told]
            test.wanted(not missing, f"{name}: the picture of the {part} lacks {missing[:5]}")
            struck = any(it.get("text-decoration") == "line-through" for it in texts)
            test.wanted(struck == (name.startswith("revocation") and part in ("forest", "spaces")), f"{name}: in the picture of the {part}, struck out: {struck}")


def drawings(test, _):
    """The drawings of the audit and of the parts are saved too, with all their words, in the colours of the page."""
    browser = test.browser
    for topic, name, tab, words in (("for audit", "engineers_system", "audit", "4096 @driver"), ("for ever", "two_clients", "ever", "4096 @client_a")):
        pick(test, topic, name)
        browser.value(CATCH.replace(f"{FRAME}.contentWindow", "window"))
        test.click(f"#panel-{tab} .saver")
        test.until("window.saved.length === 1", f"no drawing of {tab} is saved")
        drawn = ElementTree.fromstring(browser.value("window.saved[0]"))
        title = next((it.text for it in drawn if it.tag.endswith("title")), "")
        test.wanted(drawn.get("role") == "img" and name in title, f"{tab}: a drawing has the title {title!r}")
        told = [it.text for it in drawn.iter() if it.tag.endswith("text")]
        wanted = browser.value(f"[...document.querySelectorAll('#panel-{tab} .wires text')].map((it) => it.textContent)")
        test.wanted(words in told and told == wanted, f"{tab}: a drawing with the texts {told} is saved, and not {wanted}")
        looks = {it.get("fill") for it in drawn.iter()} | {it.get("stroke") for it in drawn.iter()}
        test.wanted(not any("var(" in (look or "") for look in looks) and len(looks) > 4, f"{tab}: a drawing is saved in {looks}")
        test.open()


def prints_step(test, _):
    """Ctrl P in the steps prints the step that is shown, with the name of the set-up; elsewhere it prints the page."""
    browser = test.browser
    open_steps(test, "examples", "two_clients_by_badge", 2)
    browser.value(f"window.printed = 0; {FRAME}.contentWindow.print = () => {{ window.printed += 1; }}; document.activeElement.blur()")
    press = "document.body.dispatchEvent(new KeyboardEvent('keydown', { key: 'p', ctrlKey: true, bubbles: true, cancelable: true }))"
    test.wanted(browser.value(press) is False and browser.value("window.printed") == 1, "Ctrl P does not print the step")
    test.click("#print-step")
    test.wanted(browser.value("window.printed") == 2, "a step is not printed")
    # A print of the whole page has the report; so the frame is laid out for its own print by hand.
    browser.value("document.getElementById('panel-steps').style.setProperty('display', 'block', 'important')")
    browser.call("Emulation.setEmulatedMedia", media="print")
    told = browser.value(f"[{INSIDE}.getElementById('name'), {INSIDE}.getElementById('said'), {INSIDE}.getElementById('forest')].map((it) => it.offsetParent !== null)")
    test.wanted(told == [True] * 3, f"a print of a step has its name, its sentence and the forest: {told}")
    browser.call("Emulation.setEmulatedMedia", media="")
    browser.value("document.getElementById('panel-steps').style.removeProperty('display')")
    test.click("#tab-report")
    test.settle()
    test.wanted(browser.value(press) is True, "Ctrl P of a report is taken from the browser")


def projected(test, _):
    """A key shows the steps alone in the whole window, with the set-up's name; Escape leads back."""
    browser = test.browser
    open_steps(test, "examples", "two_clients_by_badge", 1)
    browser.value("document.activeElement.blur()")
    browser.press("p")
    size = browser.value(f"[{FRAME}.clientWidth, {FRAME}.clientHeight, innerWidth, innerHeight]")
    test.wanted(size[:2] == size[2:], f"in the whole window the steps have {size[:2]} of {size[2:]}")
    test.wanted(browser.value(f"{INSIDE}.getElementById('name').offsetParent !== null"), "the whole window does not tell the set-up")
    browser.press("ArrowRight")
    test.until(f"{INSIDE}.getElementById('range').value === '2'", "in the whole window the keys do not step")
    for key, alone in (("f", "forest"), ("f", "spaces"), ("Escape", None)):
        browser.press(key)
        test.wanted(browser.value(f"{INSIDE}.body.dataset.alone ?? null") == alone, f"{key} leads to {browser.value(f'{INSIDE}.body.dataset.alone')}")
    test.wanted(browser.value("document.body.classList.contains('project')"), "the first Escape leads out of the whole window")
    browser.press("Escape")
    test.wanted(browser.value("document.querySelector('header').offsetParent !== null"), "no Escape leads out of the whole window")


def embedded_apart(test, _):
    """What is typed in the frame of a lecture's page takes no place of what the page itself keeps, and comes back there."""
    browser, mine, theirs = test.browser, "# mine\nformat = 2\n", "# theirs\nformat = 2\n"
    pick(test, "examples", "three_clients")
    address = address_of(test)
    type_anew(test, mine)
    for _ in range(2):
        browser.open(f"{test.site.as_uri()}?embed{address}")
        test.settle()
        test.wanted(browser.value(f"{EDITOR}.text.includes('clients')"), "the page in a frame does not show what its address has")
        back = browser.value("document.querySelector('#notice button')?.textContent ?? null")
        type_anew(test, theirs)
    test.wanted(back == "back to three_clients.toml, as you left it", f"the page in a frame leads back by {back}")
    test.open()
    test.wanted(browser.value(f"{EDITOR}.text") == mine, "the page in a frame takes the place of what was kept")


def embedded(test, _):
    """In the frame of a lecture's page it has neither head nor foot."""
    test.browser.open(f"{test.site.as_uri()}?embed")
    test.settle()
    shown = test.browser.value("[...document.querySelectorAll('body > header, footer, #welcome')].some((it) => it.offsetParent !== null)")
    test.wanted(not shown, "the page in a frame has a head or a foot")
    test.wanted(test.browser.value("document.querySelector('#tabs').offsetParent !== null"), "the page in a frame has no tabs")
    test.open()


def embedded_steps(test, _):
    """With ?embed=steps it has the drawings alone, at the call that its address names; no key leads out of them, and the arrows step."""
    browser = test.browser
    pick(test, "examples", "revocation_of_badged_copies")
    test.click("#tab-steps")
    test.settle()
    steps_come(test, "revocation_of_badged_copies")
    browser.value(f"{INSIDE}.getElementById('on').click()")
    address = address_of(test)
    browser.resize(900, 560)
    browser.open(f"{test.site.as_uri()}?embed=steps{address}")
    test.settle()
    test.until(f"{FRAME}?.contentDocument?.getElementById('position')?.textContent === 'call 1 of 13'", "the frame of a lecture's page shows no steps")
    shown = "[...document.querySelectorAll('header, footer, #editor, #tab-row, #command, #answer')].some((it) => it.offsetParent !== null)"
    inside = f"['calls', 'find', 'reach', 'text'].some((id) => {INSIDE}.getElementById(id).offsetParent !== null)"
    test.wanted(not browser.value(shown) and not browser.value(inside), "in the frame of a lecture's page there is more than the drawings")
    top = browser.value(f"{INSIDE}.getElementById('what').getBoundingClientRect().top + {FRAME}.getBoundingClientRect().top")
    test.wanted(top < 80, f"the first drawing begins {top} pixels down")
    test.wanted("send_then" not in browser.value("document.title"), "the frame shows another set-up")
    browser.value("sel4sim.page.steps.focus()")
    browser.press("Escape")
    browser.press("ArrowRight")
    test.until(f"{INSIDE}.getElementById('position').textContent === 'call 2 of 13'", "in the frame the arrows do not step")
    test.wanted(not browser.value(shown), "a key leads out of the drawings")
    browser.resize_back()
    test.open()


LOOKUPS = """[...document.querySelectorAll('#panel-why .reasoned')].map((it) => [it.querySelector('.reason').innerText,
  [...it.querySelectorAll('.lookup .bits')].map((part) => [part.classList[1], part.dataset.bits])])"""
LEFT = re.compile(r"the next (\d+) of the (\d+) bits left read (\d+)|bits left(?: over| behind the guard)?: (\d+)")
WORD = re.compile(r"^\w+ (\d+)(?: @\S+)?(?: (?:src_)?depth (\d+)(?: @\S+)?)? is looked up from", re.M)


def lookup_bits(test, _):
    """Where a lookup fails in the middle of a word, its bits are drawn: all of them, and as many left as the program says."""
    browser, drawn = test.browser, 0
    named = "sel4sim.page.data.topics.filter(({ topic }) => /^why_|^narrow$|^names$|^examples$/u.test(topic)).flatMap(({ topic, setups }) => setups.map(({ name }) => [topic, name]))"
    browser.value("document.getElementById('tab-why').click()")
    for topic, name in browser.value(named):
        browser.value(f"sel4sim.page.openExample({json.dumps(topic)}, {json.dumps(name)})")
        test.settle(0)
        if browser.value("sel4sim.page.exercise.isOpen"):
            browser.value("sel4sim.page.leaveExercise()")
            continue
        is_narrow = browser.value("/profile = .narrow/u.test(sel4sim.page.editor.text)")
        for reason, parts in browser.value(LOOKUPS):
            word, left = WORD.search(reason), LEFT.search(reason)
            test.wanted(bool(parts) == bool(word and left), f"{topic}/{name}: bits are drawn: {parts}, of {reason}")
            if not parts:
                continue
            drawn += 1
            told = dict(parts)
            rest = told["refused-bits"] + told.get("unread", "")
            every = told.get("passed", "") + rest
            size = int(word[2]) if word[2] else 32 if is_narrow else 64
            test.wanted(len(every) == size and int(every, 2) == int(word[1]) % (1 << size), f"{topic}/{name}: {every} are not the {size} bits of {word[1]}")
            test.wanted(len(rest) == int(left[2] or left[4]), f"{topic}/{name}: {len(rest)} bits are left, and not {left[0]}")
            read = left[1] is None or (len(told["refused-bits"]), int(told["refused-bits"], 2)) == (int(left[1]), int(left[3]))
            test.wanted(read, f"{topic}/{name}: {told['refused-bits']} are read, and not {left[0]}")
        test.wanted("×" not in browser.value("[...document.querySelectorAll('#panel-why .lookup')].map((it) => it.textContent).join()"),
                    f"{topic}/{name}: bits are told as what reads as a hexadecimal number")
    test.wanted(drawn > 20, f"the bits of {drawn} lookups are drawn")


CHECKS = (pictures, drawings, prints_step, projected, embedded_apart, embedded, embedded_steps, lookup_bits)
