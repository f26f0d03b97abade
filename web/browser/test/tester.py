"""The browser with the page, the native program beside it, and what a reader does on the page, as a test says it."""
import base64
import json
import pathlib
import subprocess
import sys
import time
import tomllib

TOP = pathlib.Path(__file__).resolve().parent.parent.parent.parent
# What takes longer does not come; a machine that is busy is ten times as slow as one that is not.
SECONDS = int(sys.argv[sys.argv.index("--seconds") + 1]) if "--seconds" in sys.argv else 600


def option(name):
    """The word behind an option of the command line, or None."""
    return sys.argv[sys.argv.index(name) + 1] if name in sys.argv else None


SITE = pathlib.Path(option("--page") or TOP / "web" / "site" / "sel4sim.html").resolve()

# Runs the program on bytes: what it wrote, as base64, and how it ended.
RUN = """(async () => {
  const to64 = (bytes) => { let text = ""; for (let at = 0; at < bytes.length; at += 8192)
    text += String.fromCharCode(...bytes.subarray(at, at + 8192)); return btoa(text); };
  const bytes = BYTES;
  const answers = [];
  for (const words of WORDS) {
    const { status, trap, output, errors, milliseconds, memory } = await sel4sim.run([...words, NAME], NAME, bytes);
    answers.push({ status, trap, output: to64(output), errors: to64(errors), milliseconds, memory });
  }
  return answers;
})()"""


def native(program, folder, words, name, text):
    """What the native program answers, in a folder that has the set-up by its name."""
    path = pathlib.Path(folder, name)
    path.write_bytes(text)
    ran = subprocess.run([program, *words, name], cwd=folder, stdin=subprocess.DEVNULL, capture_output=True, timeout=SECONDS)
    path.unlink()
    return ran.returncode, ran.stdout, ran.stderr


def as_answer(given):
    return given["trap"] if "trap" in given else given["status"], base64.b64decode(given["output"]), base64.b64decode(given["errors"])


# Where a button is whose words these are: its middle.
BUTTON = """(() => {
  const made = [...document.querySelectorAll("button")].find((it) => it.textContent === WORDS && it.offsetParent !== null);
  const { left, top, width, height } = made.getBoundingClientRect();
  return [left + width / 2, top + height / 2];
})()"""
FORGET = "(() => { localStorage.clear(); sessionStorage.clear(); })()"


class Tester:
    """A browser with the page, the native program, and the faults that are found; `site` is the page's file."""

    def __init__(self, browser, program, folder, site=SITE):
        self.browser, self.program, self.folder, self.site = browser, program, folder, site
        self.faults = []

    def alike(self, browser):
        """The same with another browser."""
        return Tester(browser, self.program, self.folder, self.site)

    def say(self, fault):
        self.faults.append(fault)
        print(fault, flush=True)

    def open(self, fragment=""):
        self.browser.open(self.site.as_uri() + fragment)
        self.settle()

    def forget(self):
        """Opens the page as one who was never here."""
        self.browser.value(FORGET)
        self.open()

    def settle(self, still=0.4):
        """Waits until the page has begun and what was typed has been run; what is typed is run after it stands still for a while."""
        until = time.time() + SECONDS
        time.sleep(still)
        while not self.browser.value("Boolean(window.sel4sim?.page.isAtRest)"):
            if time.time() > until:
                self.say("a run does not end")
                return
            time.sleep(0.05)

    def wanted(self, holds, what):
        if not holds:
            self.say(what)

    def until(self, holds, what):
        """Waits until the page has begun and an expression holds in it."""
        until = time.time() + SECONDS
        while not self.browser.value(f"Boolean(window.sel4sim && ({holds}))"):
            if time.time() > until:
                self.say(what)
                return
            time.sleep(0.05)

    def until_here(self, holds, what):
        """Waits until something holds on this machine."""
        until = time.time() + SECONDS
        while not holds():
            if time.time() > until:
                self.say(what)
                return
            time.sleep(0.05)

    def click(self, selector):
        self.browser.value(f"document.querySelector({json.dumps(selector)}).click()")

    def press_with_mouse(self, words, times=1):
        """Presses the button with these words by the mouse, so often at once."""
        self.browser.click_at(*self.browser.value(BUTTON.replace("WORDS", json.dumps(words))), times)

    def select(self, name, value):
        """Chooses in a list."""
        self.browser.value(f"(() => {{ const list = document.getElementById({json.dumps(name)}); list.value = {json.dumps(value)};"
                           " list.dispatchEvent(new Event('change')); })()")

    def text(self, name):
        return self.browser.value(f"document.getElementById({json.dumps(name)}).textContent")

    def answers(self, words, name, bytes_):
        return self.browser.value(RUN.replace("WORDS", json.dumps(words)).replace("NAME", json.dumps(name)).replace("BYTES", bytes_))

    def run_bytes(self, words, name, text):
        packed = base64.b64encode(text).decode()
        return self.answers(words, name, f"Uint8Array.from(atob('{packed}'), (letter) => letter.charCodeAt(0))")

    def run_file(self, words, name, path):
        """The same for a long text, which the page reads from a file."""
        return self.answers(words, name, f"new Uint8Array(await {picked(self, path)}.arrayBuffer())")

    def choose(self, path, picker):
        document = self.browser.call("DOM.getDocument")["root"]["nodeId"]
        node = self.browser.call("DOM.querySelector", nodeId=document, selector=f"#{picker}")["nodeId"]
        self.browser.call("DOM.setFileInputFiles", nodeId=node, files=[str(path)])

    def compare(self, what, words, name, text, given):
        wanted = native(self.program, self.folder, words, name, text)
        got = as_answer(given)
        for part, one, other in zip(("status", "standard output", "standard error"), got, wanted):
            if one != other:
                self.say(f"{what}, {' '.join(words)}: {part} is {one if part == 'status' else one[:300]}, natively "
                         f"{other if part == 'status' else other[:300]}")

    def type(self, text):
        self.browser.value("document.querySelector('.CodeMirror').CodeMirror.focus()")
        self.browser.call("Input.insertText", text=text)
        self.settle()


def pick(test, topic, name):
    """Opens an example, whether there is one."""
    there = test.browser.value(f"sel4sim.page.data.topics.some((it) => it.topic === {json.dumps(topic)}"
                               f" && it.setups.some((one) => one.name === {json.dumps(name)}))")
    test.wanted(there, f"the menu lacks {topic}/{name}")
    if there:
        test.browser.value(f"sel4sim.page.openExample({json.dumps(topic)}, {json.dumps(name)})")
        test.settle()
    return there


POSITION = "document.querySelector('#panel-steps iframe')?.contentDocument?.getElementById('position')?.textContent"
POINTED = "sel4sim.page.editor.pointed.map(({ text }) => text).join('\\n')"


def opened_at_last_call(test, text, what):
    """A text is opened as a set-up, in the steps at its last call, whose lines are marked in the editor."""
    calls = tomllib.loads(text)["call"]
    test.wanted(test.browser.value("sel4sim.page.editor.text") == text, f"{what}: another set-up is opened")
    test.until(f"{POSITION} === 'call {len(calls)} of {len(calls)}'", f"{what}: the steps are not at call {len(calls)}")
    test.until(f"{POINTED}.includes({json.dumps(calls[-1]['expect'])})", f"{what}: the lines of the last call are not marked")


def picked(test, path):
    """Has the page read a file; an expression for it."""
    test.browser.value("(() => { document.getElementById('long')?.remove(); const picker = document.createElement('input');"
                       " picker.type = 'file'; picker.id = 'long'; document.body.append(picker); })()")
    test.choose(path, "long")
    return "document.getElementById('long').files[0]"


def choose_pair(test, name, pair):
    """Chooses in the two lists of an option that takes a pair; an empty text takes both back."""
    for at, value in enumerate((pair or ",").split(",")):
        test.browser.value(f"(() => {{ const list = document.getElementById('option-{name}-{at}'); list.value = {json.dumps(value)};"
                           " list.dispatchEvent(new Event('change')); })()")
        test.settle(0.6)


def type_option(test, name, value):
    """Types into the field of an option."""
    test.browser.value(f"(() => {{ const field = document.getElementById('option-{name}'); field.value = {json.dumps(value)};"
                       " field.dispatchEvent(new Event('input')); })()")
    test.settle(0.6)
