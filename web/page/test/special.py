"""What each page does not show by itself: files and texts that mean harm, the viewer, page.sh, the keys, what a screen
reader is told, the colours and the print. Each check yields what is wrong."""
import json
import re
import subprocess
import time

from replay import states_of, steps_of

BOOT = """  + thread 2048 ready
  + endpoint 4096 idle
  + slot 32 cnode 0 radix 4 guard 0 size 60 original
  + slot 64 tcb 2048 original
  + slot 96 endpoint 4096 badge 0 rights wrgp original
  + slot 2048 cnode 0 radix 4 guard 0 size 60 under 32
  + sibling 64 after 32
  + sibling 96 after 64
"""
HARM = ("</pre></body><script>document.title = 'taken'</script>",
        "&lt;b&gt; & &amp; <img src=http://page-test.invalid/a>", "done] [met]",
        "' onmouseover='document.title = 1",
        "{script} {trace} \\")
COUNT = len(HARM) + 4


def way_of(word, start, node, guard=0):
    """The line of a way through one CNode, by the size of its guard, the index in bits and the slot."""
    size, index, slot = node
    return f"  way {word} bits 64 from {start} guard {guard} size {size} index {index} slot {slot}\n"


# The last of these is refused, with texts that mean harm in its reason too.
REASON = f"  cap 3 {HARM[0]}\n  the second line {HARM[1]}\n"
# A run with these texts, and with a guard that its thread has to name.
RUN = f"""trace 2 wide memory_bits 16 calls {COUNT}
name sender 2048
name endpoint 3
0 boot
{BOOT}""" + "".join(f"""{number} 2048 nbsend: {"refused 2" if number == len(HARM) else "dropped"} [not met: {harm}]
  with cap 3 label 0 words
{way_of("cap 3", 2048, (60, "0011", 96))}""" for number, harm in enumerate(HARM, 1)) + REASON + f"""{COUNT - 3} 2048 revoke: done
  with cap 1 index 4 depth 64
{way_of("cap 1", 2048, (60, "0001", 32))}{way_of("index 4", 32, (60, "0100", 128))}{COUNT - 2} 2048 copy: done
  with cap 1 index 5 depth 64 src_root 1 src_index 3 src_depth 64 rights 1
{way_of("cap 1", 2048, (60, "0001", 32))}{way_of("src_root 1", 2048, (60, "0001", 32))}{way_of("index 5", 32, (60, "0101", 160))}\
{way_of("src_index 3", 32, (60, "0011", 96))}  + slot 160 endpoint 4096 badge 0 rights w--- under 96
{COUNT - 1} 2048 set_space: done
  with cap 2 root 1 word 378
{way_of("cap 2", 2048, (60, "0010", 64))}{way_of("root 1", 2048, (60, "0001", 32))}  - slot 2048 cnode 0 radix 4 guard 0 size 60 under 32
  + slot 2048 cnode 0 radix 4 guard 5 size 58 under 32
{COUNT} 2048 send: waiting [met]
  with cap 332 label 7 words 1 2
{way_of("cap 332", 2048, (58, "0011", 96), guard=5)}  - thread 2048 ready
  + thread 2048 sending 4096 badge 0 label 7 words 1 2
  - endpoint 4096 idle
  + endpoint 4096 sending 2048
expected 1 of {len(HARM) + 1}
"""

# What would load something or run something, were it not for the policy.
LOADS = """<img src="http://page-test.invalid/1"><script src="http://page-test.invalid/2"></script>
<link rel="stylesheet" href="http://page-test.invalid/3"><iframe src="http://page-test.invalid/4"></iframe>
<video src="http://page-test.invalid/5"></video><object data="http://page-test.invalid/6"></object>
<style>body { background: url(http://page-test.invalid/7) }</style><script>document.title = "taken"</script>
<img src="data:," onerror="document.title = 'taken'"><base href="http://page-test.invalid/8">"""

# The title of the page of a set-up that is called x.
TITLE = "x · sel4sim run"

CONTROLS = {"button", "textbox", "searchbox", "slider", "combobox", "listbox", "option", "region", "navigation", "main",
            "DisclosureTriangle", "image"}


def script_of(folder, name, lines):
    path = folder / name
    path.write_text("#!/bin/sh\n" + lines)
    path.chmod(0o755)
    return path


def wait(browser, milliseconds=100):
    browser.value(f"new Promise((done) => setTimeout(done, {milliseconds}))")


def text(browser, name):
    return browser.value(f"document.getElementById('{name}').textContent")


def comes(browser, position):
    """Whether the page comes to a position, however long it takes."""
    until = time.monotonic() + 60
    while text(browser, "position") != position and time.monotonic() < until:
        time.sleep(0.05)
    return text(browser, "position") == position


# A set-up's name that means something to a shell, to sed and to a browser.
ODD_NAME = "a&b<i>$(c)|\\1%s"


def page_sh(_, page, folder):
    """The statuses of page.sh, and what it writes where; also where it is called by a link from another folder."""
    (folder / "linked").symlink_to(page / "page.sh")
    trace = folder / "run.trace"
    trace.write_text(RUN)
    escaped, name = (told.replace("&", "&amp;").replace("<", "&lt;") for told in (RUN, ODD_NAME))
    whole = (page / "viewer.html").read_text().replace("<title>sel4sim run<", f"<title>{name} · sel4sim run<")
    whole = whole.replace('<pre id="trace"></pre>', f'<pre id="trace">{escaped}</pre>').encode()
    ways = ((0, f"cat {trace}", whole), (1, f"cat {trace}; exit 1", whole),
            (2, "echo set-up refused 200 at text; exit 2", b""), (3, f"head -c 99 {trace}; exit 3", b""))
    for status, lines, wanted in ways:
        program = script_of(folder, f"ends_with_{status}", lines)
        made = subprocess.run([page / "page.sh", program, f"x/{ODD_NAME}.toml"], capture_output=True, timeout=600)
        if made.returncode != status or made.stdout != wanted:
            yield f"page.sh ended with {made.returncode}, the program with {status}; {len(made.stdout)} bytes"
        if (status > 1) != (f"ended with status {status}".encode() in made.stderr):
            yield f"page.sh says {made.stderr!r} where the program ended with {status}"
        if status == 2 and b"set-up refused 200 at text" not in made.stderr:
            yield "page.sh does not say why the set-up was refused"
    full = f"{page / 'page.sh'} {folder / 'ends_with_0'} x > /dev/full"
    if subprocess.run(["sh", "-c", full], stderr=subprocess.DEVNULL, timeout=600).returncode != 3:
        yield "page.sh does not say that its page could not be written"
    words = [folder / "linked", folder / "ends_with_0", f"{ODD_NAME}.toml"]
    linked = subprocess.run(words, capture_output=True, timeout=600)
    if linked.stdout != whole:
        yield f"page.sh by a link: {linked.stderr}"
    if subprocess.run([page / "page.sh", folder / "none", "x"], capture_output=True, timeout=600).returncode != 127:
        yield "page.sh does not say that there is no program"


def open_run(browser, folder):
    """A page of the run with texts that mean harm; made by the script that the check above looks at."""
    path = folder / "run.html"
    browser.open(path.as_uri())


def make_run(page, folder):
    """Makes the page of the run with texts that mean harm."""
    made = subprocess.run([page / "page.sh", folder / "ends_with_0", "x"], capture_output=True, check=True, timeout=600)
    (folder / "run.html").write_bytes(made.stdout)


def harmless(browser, page, folder):
    """Texts of expectations are shown as they are, and do nothing."""
    make_run(page, folder)
    open_run(browser, folder)
    for number, harm in enumerate(HARM, 1):
        browser.press("ArrowRight")
        if f"not met: {harm}" not in text(browser, "said"):
            yield f"the expectation {harm} is told as {text(browser, 'said')}"
        if browser.value("document.querySelectorAll('#run script, #run img').length") != 0:
            yield f"the expectation {harm} made elements"
    if browser.value("document.title") != TITLE or text(browser, "name") != "x":
        yield "a text of the trace ran, or the page has another title"
    if browser.complaints or browser.recorder.asked or len(browser.asked) != 1:
        yield f"complaints {browser.complaints}, requests {browser.asked} {browser.recorder.asked}"


def nothing_leaves(browser, _, folder):
    """The policy holds: what would load or run something in a page does not, and would without the policy."""
    made = (folder / "run.html").read_text()
    with_policy, without = folder / "with_policy.html", folder / "without.html"
    with_policy.write_text(made.replace('<p id="notice"', LOADS + '<p id="notice"'))
    browser.open(with_policy.as_uri())
    wait(browser, 500)
    if browser.recorder.asked or browser.value("document.title") != TITLE:
        yield f"under the policy {browser.recorder.asked} was asked for; the title is {browser.value('document.title')}"
    if browser.value("document.body.dataset.shows") != "run":
        yield "the page's own script does not run under the policy"
    if not browser.value("(() => { try { document.body.innerHTML = '<b>'; } catch { return true; } return false; })()"):
        yield "a text could become markup"
    without.write_text(re.sub(r"<meta http-equiv=.*?>", "", made).replace('<p id="notice"', LOADS + '<p id="notice"'))
    browser.open(without.as_uri())
    wait(browser, 500)
    if not any("page-test.invalid/1" in line for line in browser.recorder.asked):
        yield f"without the policy the recorder saw {browser.recorder.asked}: it would miss a request"
    browser.recorder.asked.clear()


def choose(browser, path, picker):
    """Chooses a file in a file picker of the page."""
    document = browser.call("DOM.getDocument")["root"]["nodeId"]
    node = browser.call("DOM.querySelector", nodeId=document, selector=f"#{picker}")["nodeId"]
    browser.call("DOM.setFileInputFiles", nodeId=node, files=[str(path)])
    wait(browser, 200)


DROP = """(() => {
  const dataTransfer = new DataTransfer();
  dataTransfer.items.add(new File([RUN], "run.trace"));
  document.dispatchEvent(new DragEvent("drop", { dataTransfer, bubbles: true, cancelable: true }));
})()"""

# Texts that are no trace, or none that fits itself, and what the viewer says of each.
ODD_TEXTS = {
    "another file": ("format = 2\n", "line 1: a trace begins with"),
    "a refused set-up": ("set-up refused 204 at call 1 key op\n", "set-up refused 204 at call 1 key op"),
    "another version": (RUN.replace("trace 2", "trace 1"), "line 1"),
    "a name of other letters": (RUN.replace("name sender", "name <img/src=x/onerror=alert(1)>"), "line 2"),
    "an address outside of the memory": (RUN.replace("slot 160", "slot 99999999"), "no address in the memory"),
    "a sibling outside of the memory": (RUN.replace("after 64", "after 99999999"), "no address in the memory"),
    "a CNode without slots": (RUN.replace("radix 4", "radix 0"), "0 is not from 1 to 20"),
    "a guard of too many bits": (RUN.replace("size 58", "size 61"), "61 is not from 0 to 60"),
    "a call that is missing": (RUN.replace("2 2048 nbsend", "9 2048 nbsend"), "call 2 should stand here"),
    "a refusal without its reason": (re.sub(r"  cap 3 .*\n.*\n", "", RUN), "one to four lines of its reason"),
    "a reason of a call that is answered": (RUN.replace("expected", "  no reason\nexpected"), "no line of a trace"),
    "a call without a word": (RUN.replace(" rights 1\n", "\n"), "the words of a copy are"),
    "another operation": (RUN.replace("copy:", "steal:"), "no operation"),
    "a line of its own": (RUN.replace("expected", "unexpected"), "no line of a trace"),
    "a change that does not fit": (RUN.replace("- endpoint 4096 idle", "- endpoint 4096 sending 2048"),
                                   f"at call {COUNT}"),
    "a trace without ways": (re.sub(r"  way .*\n", "", RUN), "it was written without --ways"),
    "a way of other bits": (RUN.replace("index 0101", "index 0111"), "these are not the bits of index 5"),
    "a trace that was cut off": (RUN[:RUN.index("expected")], "cut off"),
    "an empty file": ("", "line 1"),
}


def viewer(browser, page, folder):
    """The viewer opens a trace by its picker and by dropping, and says of another text why it is none."""
    browser.open((page / "viewer.html").as_uri())
    if browser.value("document.body.dataset.shows") != "start" or browser.value("document.title") != "sel4sim run":
        yield "the viewer does not invite to open a trace"
    choose(browser, folder / "run.trace", "open-first")
    browser.value("document.getElementById('state-lines').open = true")
    wait(browser)
    state = states_of(steps_of(RUN))
    for number, key in ((0, None), (len(state) - 1, "End"), (1, None)):
        browser.press(key) if key else browser.value(f"location.hash = '#{number}'")
        wait(browser)
        if text(browser, "state-text") != "\n".join(state[number].values()):
            yield f"the viewer shows\n{text(browser, 'state-text')} behind step {number}"
    for what, (odd, said) in ODD_TEXTS.items():
        (folder / "odd.trace").write_text(odd)
        choose(browser, folder / "odd.trace", "open")
        if said not in text(browser, "notice"):
            yield f"of {what} the viewer says {text(browser, 'notice')!r}"
    browser.value(DROP.replace("RUN", json.dumps(RUN)))
    wait(browser)
    if text(browser, "notice") != "" or "boot" not in text(browser, "position"):
        yield f"of a trace that is dropped the viewer says {text(browser, 'notice')!r}"
    if browser.complaints or browser.recorder.asked:
        yield f"complaints {browser.complaints}, requests {browser.recorder.asked}"


def keys(browser, _, folder):
    """Each key does what the help of the page says, and leaves fields alone."""
    open_run(browser, folder)
    last = COUNT
    for pressed, number in (("ArrowDown", 1), ("j", 2), ("k", 1), ("End", last), ("ArrowUp", last - 1), ("n", 1),
                            ("n", 2), ("PageUp", 0), ("r", last - 3), ("Home", 0), ("PageDown", last),
                            ("ArrowRight", last), ("Home", 0),
                            ("ArrowLeft", 0)):
        browser.press(pressed)
        wanted = f"call {number} of {last}" if number else f"boot, {last} calls"
        if text(browser, "position") != wanted:
            yield f"after {pressed} the page shows {text(browser, 'position')}, and not {wanted}"
    browser.press("/")
    for letter in "rights w-":
        browser.press(letter)
    browser.press("Enter")
    typed = browser.value("document.getElementById('find').value")
    if typed != "rights w-" or f"call {last - 2} " not in text(browser, "position"):
        yield f"the find box has {typed!r} and leads to {text(browser, 'position')}"
    browser.value("document.getElementById('find').value = 'nowhere'")
    browser.press("Enter", shift=True)
    if text(browser, "found") != "not found":
        yield "the find box does not say that nothing was found"
    browser.value("document.activeElement.blur()")
    reached = set()
    for _ in range(40):
        browser.press("Tab")
        reached.add(browser.value("document.activeElement.id || document.activeElement.tagName"))
    for name in ("first", "back", "on", "range", "find", "next-missed", "open", "list", "seer", "SUMMARY"):
        if name not in reached and browser.value(f"document.getElementById('{name}')?.disabled !== true"):
            yield f"the key Tab does not reach {name}"


def playing(browser, _, folder):
    """Space plays and stops, and so does its button; the question mark shows the keys, and Escape closes them."""
    open_run(browser, folder)
    browser.press(" ")
    for call in (1, 2):
        if not comes(browser, f"call {call} of {COUNT}"):
            yield f"playing does not lead to call {call}, but to {text(browser, 'position')}"
    browser.press(" ")
    stopped = text(browser, "position")
    wait(browser, 1700)
    if text(browser, "position") != stopped:
        yield f"it plays on from {stopped} to {text(browser, 'position')}"
    browser.value("document.getElementById('play').click()")
    browser.press("Home")
    wait(browser, 1700)
    if f"boot, {COUNT} calls" != text(browser, "position"):
        yield "a key does not stop the playing"
    browser.press("End")
    browser.press(" ")
    if browser.value("document.getElementById('play').getAttribute('aria-label')") != "Play the calls":
        yield "it plays behind the last call"
    is_open = "document.getElementById('keys').open"
    browser.press("?")
    opened = browser.value(is_open)
    browser.press("Escape")
    wait(browser)
    if not opened or browser.value(is_open):
        yield "the question mark does not show the keys, or Escape does not close them"


def screen_reader(browser, _, folder):
    """Each control and each part has a role and a name, and the call's sentence is spoken at each step."""
    open_run(browser, folder)
    browser.press("End")
    tree = browser.call("Accessibility.getFullAXTree")["nodes"]
    found = {}
    for node in tree:
        role = node.get("role", {}).get("value")
        if role in CONTROLS and not node.get("ignored"):
            found.setdefault(role, []).append(node.get("name", {}).get("value", ""))
    for role, names in found.items():
        if "" in names:
            yield f"{names.count('')} of the role {role} have no name"
    for name in found.get("button", []):
        if not re.search("[a-z]{2}", name):
            yield f"a button has the name {name!r}, which is no word"
    for role in CONTROLS - {"textbox", "option"}:
        if role not in found:
            yield f"nothing has the role {role}: {sorted(found)}"
    if browser.value("document.getElementById('said').getAttribute('aria-live')") != "polite":
        yield "the sentence is not spoken"
    active = browser.value("document.getElementById('list').getAttribute('aria-activedescendant')")
    if browser.value(f"document.getElementById('{active}')?.getAttribute('aria-selected')") != "true":
        yield "the list does not say which call is the current one"


def luminance(colour):
    digits = colour[1:] if len(colour) == 7 else "".join(digit * 2 for digit in colour[1:])
    parts = [int(digits[place:place + 2], 16) / 255 for place in (0, 2, 4)]
    linear = [part / 12.92 if part <= 0.04045 else ((part + 0.055) / 1.055) ** 2.4 for part in parts]
    return 0.2126 * linear[0] + 0.7152 * linear[1] + 0.0722 * linear[2]


def colours(_, page, __):
    """Each text and its ground have a contrast of 4.5 or more, in the light theme and in the dark one."""
    style = (page / "source" / "colours.css").read_text()
    themes = re.findall(r":root \{(.*?)\}", style, re.S)[:2]
    kinds = ("filled", "emptied", "altered", "untyped", "endpoint", "cnode", "tcb")
    grounds = ("ground", "card", "soft", "chosen", "filled-ground", "emptied-ground", "altered-ground")
    pairs = [(kind, f"{kind}-ground") for kind in kinds] + [("emptied", ground) for ground in ("card", "chosen")]
    pairs += [(ink, ground) for ink in ("ink", "dim") for ground in grounds]
    for theme in themes:
        values = dict(re.findall(r"--([\w-]+): (#\w+)", theme))
        for ink, ground in pairs:
            dark, light = sorted((luminance(values[ink]), luminance(values[ground])))
            contrast = (light + 0.05) / (dark + 0.05)
            if contrast < 4.5:
                yield f"{ink} on {ground} has a contrast of {contrast:.2f}"


def themes_and_print(browser, _, folder):
    """The dark theme is dark, a narrow window is not overrun, and a page can be printed."""
    open_run(browser, folder)
    ground = "getComputedStyle(document.body).backgroundColor"
    light = browser.value(ground)
    browser.call("Emulation.setEmulatedMedia", features=[{"name": "prefers-color-scheme", "value": "dark"}])
    if browser.value(ground) == light:
        yield "the dark theme is not dark"
    browser.call("Emulation.setEmulatedMedia", features=[])
    for width in (360, 800, 1600):
        browser.resize(width, 800, is_phone=False)
        if browser.value("document.documentElement.scrollWidth > innerWidth"):
            yield f"a window of {width} is overrun"
    browser.resize_back()
    if len(browser.call("Page.printToPDF")["data"]) < 10_000:
        yield "the print is empty"


def without_scripts(browser, _, folder):
    """Without scripts a page shows the trace as text, and nothing else of its own."""
    browser.call("Emulation.setScriptExecutionDisabled", value=True)
    browser.call("Page.navigate", url=(folder / "run.html").as_uri())
    time.sleep(1)
    shown = browser.value("document.body.innerText")
    browser.call("Emulation.setScriptExecutionDisabled", value=False)
    if RUN.rstrip("\n") not in shown or "find in the trace" in shown:
        yield f"without scripts a page shows {shown[:200]!r}"


def modules(_, page, __):
    """The tests of the modules, without a browser."""
    words = ["node", "--test", page / "test" / "modules.test.mjs"]
    tested = subprocess.run(words, capture_output=True, text=True, timeout=600)
    if tested.returncode != 0:
        yield tested.stdout + tested.stderr


CHECKS = (modules, page_sh, harmless, nothing_leaves, viewer, keys, playing, screen_reader, colours,
          themes_and_print, without_scripts)


def run(browser, page, folder, checks=CHECKS):
    """Runs each check: whether all is right."""
    right = True
    for check in checks:
        faults = list(check(browser, page, folder))
        for fault in faults:
            print(f"{check.__name__}: {fault}")
        right &= not faults
    print(f"{len(checks)} further checks, {'all right' if right else 'with faults'}")
    return right
