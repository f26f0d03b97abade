"""A teacher's way: a set-up of one's own is made an exercise, its address is opened on another machine, and three files with
answers come back and are marked."""
import json
import pathlib
import shutil
import subprocess

import chromium
from sheets import MARKING, SHEET, focus_first, give, press_button

KEY = """# exercise: Who is told what
# Two threads share one CNode. Slot 4 has a capability of the endpoint.
#
# Where a message is delivered, say also from whom, to whom and with which badge.
format = 2
memory_bits = 16
root_radix = 4
threads = 2
endpoints = 1

[names]
sender = 2048
receiver = 4096

# The sender puts a badge on a copy of it, in slot 6.
[[call]]
thread = "@sender"
op = "mint"
cap = 1
index = 6
depth = 64
src_index = 4
src_depth = 64
rights = 15
word = 7
expect = "done"

# The sender sends by the copy.
[[call]]
thread = "@sender"
op = "send"
cap = 6
label = 1
expect = "waiting"

# The receiver takes the message.
#> The badge is the sender's, whatever the receiver's own capability says.
[[call]]
thread = "@receiver"
op = "recv"
cap = 4
expect = "delivered 6144 from 2048 to 4096 badge 7"
"""
ANSWERS = {1: "done", 2: "waiting", 3: "delivered 6144 from 2048 to 4096 badge 7"}
WRONG = {**ANSWERS, 3: "delivered 6144 from 2048 to 4096 badge 0"}
TABLE = """file,right,of,wrong,open,note
ann.toml,3,3,,,
ben.toml,2,3,3,,
cat.toml,1,3,,2 3,
"""


def address_of_exercise(test):
    """Opens the key, which is as expected, and shares it as an exercise: the part of the address."""
    browser = test.browser
    test.forget()
    browser.value(f"sel4sim.page.open({json.dumps(KEY)}, 'told_what.toml')")
    test.settle()
    test.wanted("3 of 3 expectations met" in test.text("ended"), f"the key is answered with {test.text('ended')}")
    browser.value("document.getElementById('address').value = ''")
    test.click("#share")
    test.until("document.getElementById('address').value !== ''", "no address is shared")
    test.click("#as-exercise")
    address = browser.value("(async () => { await sel4sim.page.sharing.draw(); return document.getElementById('address').value; })()")
    test.click("#shared button:last-child")
    return address


def handed_in(test, address, answers, name):
    """A student on another machine opens a copy of the page with the address, answers, and saves the answers: the file."""
    folder = pathlib.Path(test.folder, name)
    folder.mkdir()
    page = shutil.copy(test.site, folder / "copy of the page.html")
    browser = chromium.Chromium.started(width=1280, height=800)
    student = test.alike(browser)
    try:
        browser.open(pathlib.Path(page).as_uri() + address)
        student.until(f"{SHEET}?.inert === false && document.querySelector('.card.asks select')", f"{name}: the address leads to no sheet")
        student.wanted(ANSWERS[3] not in browser.value("document.documentElement.innerText"), f"{name}: the sheet tells an answer")
        focus_first(student)
        for number, answer in answers.items():
            give(student, number, answer)
        if len(answers) == len(ANSWERS):
            press_button(student, "mark my answers")
            student.until("document.querySelector('.card.wrong, .answered')", f"{name}: nothing is marked")
            student.wanted(browser.value(MARKING).startswith("3 of 3 right" if answers == ANSWERS else "2 of 3 right"), f"{name}: {browser.value(MARKING)}")
        browser.call("Browser.setDownloadBehavior", behavior="allow", browserContextId=browser.context, downloadPath=str(folder))
        browser.value("[...document.querySelectorAll('.marking button')].find((it) => it.textContent === 'save my answers').click()")
        saved = folder / "told_what.answers.toml"
        student.until_here(saved.exists, f"{name}: no answers are saved")
        return saved
    finally:
        test.faults += student.faults
        browser.close()


def course_of_ones_own(test, _):
    """All right, one answer wrong, and one given and two left open: the program's table says so."""
    address = address_of_exercise(test)
    folder = pathlib.Path(test.folder, "handed in")
    folder.mkdir()
    for name, answers in (("ann", ANSWERS), ("ben", WRONG), ("cat", {1: "done"})):
        shutil.copy(handed_in(test, address, answers, name), folder / f"{name}.toml")
    test.wanted((folder / "cat.toml").read_text().endswith("\n# answers: 1 of 3 answered, not marked\n"), "what is not marked is told as marked")
    words = [test.program, "marks", "ann.toml", "ben.toml", "cat.toml"]
    ran = subprocess.run(words, cwd=folder, stdin=subprocess.DEVNULL, capture_output=True, text=True, check=False)
    test.wanted((ran.returncode, ran.stdout) == (1, TABLE), f"what came back is marked as {ran.stdout!r}, with status {ran.returncode}")


CHECKS = (course_of_ones_own,)
