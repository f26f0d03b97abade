#!/usr/bin/env python3
"""browser_test.py PROGRAM FOLDER [--short] [--pictures FOLDER] [--page FILE]: tries web/site/sel4sim.html in chromium, and shortly in firefox.

Each set-up in the folders of FOLDER is run by each subcommand in the page's own worker: standard output, standard error and
status have to be those of PROGRAM, byte for byte; so are the worked audits, parts and orders with their options, and texts that are broken, deep and long (tests/hostile_texts.py). Then
the page is used as a reader uses it. Nothing may leave it: no request may reach the proxy. With --pictures, pictures of the
page at several widths are written there; with --short, the broken and long texts are left out. With --page
another page is tried than web/site/sel4sim.html, as a draft of it (web/browser/build.py).
"""
import base64
import json
import os
import pathlib
import random
import re
import shutil
import sys
import tempfile
import time

TOP = pathlib.Path(__file__).resolve().parent.parent.parent.parent
sys.path[:0] = [str(TOP / "web" / "page" / "test"), str(TOP / "tests"), str(TOP / "web" / "browser" / "test"), str(TOP / "web" / "browser")]

import asked_by_hand  # noqa: E402
import build  # noqa: E402
import chromium  # noqa: E402
import drawn  # noqa: E402
import firefox  # noqa: E402
import first_minute  # noqa: E402
import gives_nothing_away  # noqa: E402
import goals_reached  # noqa: E402
import hearing  # noqa: E402
import held  # noqa: E402
import helped  # noqa: E402
import hostile_texts  # noqa: E402
import in_bits  # noqa: E402
import lectures  # noqa: E402
import nothing_lost  # noqa: E402
import sheets  # noqa: E402
import teacher  # noqa: E402
import what_if  # noqa: E402
from tester import SITE, Tester, as_answer, choose_pair, native, opened_at_last_call, option, pick, picked, type_option  # noqa: E402

SUBCOMMANDS = (["check"], ["marks"], ["trace"], ["trace", "--ways"], ["migrate"], ["why"], ["audit"], ["ever"], ["never", "2048,4096"], ["explore"],
               ["tree"])
SEED = 7
TEXTS = 400
MOST_SECONDS = 5
MOST_MEMORY = 400 << 20
CONTROLS = {"button", "tab", "combobox", "textbox", "tabpanel", "main"}


def needs():
    """What is missing on this machine."""
    if chromium.program() is None:
        yield "chromium (apt-get install chromium)"
    if firefox.program() is None:
        yield "firefox (apt-get install firefox-esr)"
    if not SITE.exists():
        yield f"{SITE} (make browser)"


def same_answers(test, setups):
    """Every worked set-up by every subcommand; of `threads`, what it says where no thread can be started."""
    count = 0
    for path in sorted(setups.glob("*/*.toml")):
        text = path.read_bytes()
        given = test.run_bytes([*SUBCOMMANDS, ["threads"]], path.name, text)
        for it, answer in zip(SUBCOMMANDS, given):
            test.compare(f"{path.parent.name}/{path.stem}", it, path.name, text, answer)
            count += 1
        status, output, errors = as_answer(given[-1])
        if status == 2:
            test.compare(f"{path.parent.name}/{path.stem}", ["threads"], path.name, text, given[-1])
        elif status != 0:
            test.wanted((status, output) == (3, b"") and errors.startswith(b"sel4sim: "),
                        f"{path.stem}, threads: status {status}, {output[:100]}, {errors[:100]}")
        count += 1
    for words in ([], ["--help"], ["help"], ["--version"], ["check", "--no-such"], ["chekc"], ["check", "another.toml"],
                  ["ever", "--slot", "1"], ["audit", "--ever"], ["never"], ["audit", "--without", "a"], ["explore", "--first", "9"]):
        given = test.run_bytes([words], "a set-up.toml", b"format = 2\n")
        test.compare("a command line", words, "a set-up.toml", b"format = 2\n", given[0])
        count += 1
    print(f"{count} answers compared with the native program's", flush=True)


def words_asked(path):
    """The command lines that the files beside a worked set-up ask for: by their names (`NAME.after-14.slot-320.audit`,
    `NAME.first_2.states_60.explore`), or by a file NAME.args."""
    for file in sorted(path.parent.glob(f"{path.stem}.*")):
        if file.suffix == ".never":
            yield ["never", *file.with_suffix(".args").read_text().split()]
        if file.suffix == ".how":
            yield ["how", *file.with_suffix(".args").read_text().split()]
        options = {}
        for option, value in re.findall(r"\.([a-z]+)[-_]([^.]+)", file.name):
            options[option] = f"{options[option]},{value}" if option in options else value
        words = [word for option, value in options.items() for word in (f"--{option}", value)]
        if file.suffix == ".audit":
            yield ["audit", *words]
        elif file.suffix == ".ever":
            args = path.with_suffix(".args")
            yield ["ever", *(args.read_text().split() if args.exists() else words)]
        elif file.suffix == ".explore":
            yield ["explore", *words]


def same_with_options(test, _):
    """The worked audits, parts, orders and calls that were looked for, each with its options; and the reason of each call of some set-ups alone."""
    count = 0
    for kind in ("audits", "parts", "explorations", "hows"):
        for path in sorted((TOP / "tests" / "answers" / kind).glob("*.toml")):
            words, text = list(words_asked(path)), path.read_bytes()
            for it, answer in zip(words, test.run_bytes(words, path.name, text)):
                test.compare(f"{kind}/{path.stem}", it, path.name, text, answer)
                count += 1
    for path in sorted((TOP / "tests" / "worked").glob("why_*/*.toml"))[::5]:
        words, text = [["why", "--call", number] for number in ("0", "1", "2", "99", "x")], path.read_bytes()
        for it, answer in zip(words, test.run_bytes(words, path.name, text)):
            test.compare(path.stem, it, path.name, text, answer)
            count += 1
    print(f"{count} answers with options compared", flush=True)


def hostile(test, setups, stored):
    """Broken, deep and long texts: the native program's answers, or status 3 where a browser gives less memory."""
    texts = [it for path in hostile_texts.longest_of_each_format(setups) for it in hostile_texts.beginnings(path.read_bytes())]
    texts += hostile_texts.replaced(stored)
    for name, text in random.Random(SEED).sample(texts, TEXTS):
        test.compare(name, ["check"], "broken.toml", text, test.run_bytes([["check"]], "broken.toml", text)[0])
    count = 0
    for name, text, _ in hostile_texts.long_texts(stored):
        path = pathlib.Path(test.folder, "long.toml")
        path.write_bytes(text)
        given = test.run_file([["check"]], path.name, path)[0]
        if given.get("status") == 3 and given["memory"] > 900 << 20:
            print(f"{name}: out of memory at {given['memory'] >> 20} MiB")
        else:
            test.compare(name, ["check"], path.name, text, given)
        count += 1
    print(f"{TEXTS} broken texts and {count} deep and long ones", flush=True)


def peak_memory(browser):
    """The most memory that a process of the browser which shows a page has had, in bytes."""
    most = 0
    for folder in pathlib.Path("/proc").glob("[0-9]*"):
        try:
            words, status = (folder / "cmdline").read_bytes(), (folder / "status").read_text()
        except OSError:
            continue
        if b"--type=renderer" in words and is_below(folder.name, browser.process.pid):
            most = max(most, int(re.search(r"VmHWM:\s+(\d+) kB", status)[1]) << 10)
    return most


def is_below(pid, ancestor):
    while pid not in ("0", "1", ""):
        if int(pid) == ancestor:
            return True
        try:
            pid = pathlib.Path("/proc", pid, "stat").read_text().rsplit(")", 1)[1].split()[1]
        except OSError:
            return False
    return False


OPEN = """(async () => {
  const text = await FILE.text();
  const begun = performance.now();
  await sel4sim.page.open(text, 'longest.toml');
  await sel4sim.page.run();
  return performance.now() - begun;
})()"""


def longest(program, folder, stored):
    """65,536 calls in time and memory; after a run that is stopped there is another; memory past 1 GiB is refused. In a
    browser of its own, whose memory nothing else has raised."""
    browser = chromium.Chromium.started(width=1280, height=800)
    test = Tester(browser, program, folder)
    try:
        test.open()
        path = pathlib.Path(folder, "longest.toml")
        path.write_bytes(next(it for name, it, _ in hostile_texts.long_texts(stored) if name == "65,536 calls"))
        seconds = browser.value(OPEN.replace("FILE", picked(test, path))) / 1000
        memory = peak_memory(browser)
        test.wanted("more lines" in test.text("panel-report"), "the longest set-up has no report")
        test.wanted("status 0" in test.text("status"), f"the longest set-up: {test.text('status')}")
        test.wanted(seconds <= MOST_SECONDS, f"the longest set-up takes {seconds:.1f} s")
        test.wanted(memory <= MOST_MEMORY, f"the longest set-up takes {memory >> 20} MiB")
        print(f"65,536 calls: {seconds:.1f} s until the report is shown ({test.text('ended')}), "
              f"{memory >> 20} MiB in the page's process", flush=True)
        stops(test)
        path.write_bytes(b"".join(b"k%d = 1\n" % number for number in range(4_000_000)))
        given = test.run_file([["check"]], path.name, path)[0]
        status, _, errors = as_answer(given)
        test.wanted(status == 3 and b"memory" in errors, f"where memory ends: {status}, {errors[:200]}")
        test.wanted(given["memory"] <= 1 << 30, f"the program had {given['memory'] >> 20} MiB")
        test.compare("after memory was refused", ["check"], "a.toml", stored, test.run_bytes([["check"]], "a.toml", stored)[0])
        return test.faults
    finally:
        browser.close()


def stops(test):
    """A run that is stopped in its middle says so, and another one goes on."""
    test.browser.value("document.getElementById('run').click()")
    time.sleep(0.2)
    test.browser.value("document.getElementById('stop').click()")
    time.sleep(0.1)
    test.wanted(test.text("state") == "stopped", f"a run that is stopped is told as {test.text('state')!r}")
    test.browser.value("sel4sim.page.openExample('examples', 'send_then_receive')")
    test.settle()
    test.wanted("delivered 6144 from 2048" in test.text("panel-report"), "after a run that was stopped there is no other")


def typing(test, _):
    """Typing changes the report; a fault is marked at its line; a shared address, a file and a reload keep the set-up."""
    browser = test.browser
    test.forget()
    test.wanted("delivered 6144 from 2048" in test.text("panel-report"), "the first example does not run")
    test.wanted("status 0" in test.text("status"), f"the first example ends with {test.text('status')}")
    test.select("examples", "examples/two_clients_by_badge")
    test.settle()
    test.wanted("badge" in test.text("panel-report"), "an example of the menu does not run")
    browser.value("sel4sim.page.openExample('examples', 'send_then_receive')")
    test.settle()
    test.type('lable = 7\n')
    test.wanted("status 2" in test.text("status") and "lable" in test.text("errors"), f"a fault is told as {test.text('errors')!r}")
    marked = browser.value("document.querySelectorAll('.faulty').length")
    test.wanted(marked == 1, f"{marked} lines are marked")
    browser.value("sel4sim.page.editor.mirror.undo()")
    test.settle()
    test.wanted("status 0" in test.text("status"), "the fault stays when it is gone")
    test.wanted(browser.value("document.querySelectorAll('.mark-met').length") == 1, "a call that is met is not marked")
    browser.value("sel4sim.page.editor.text = sel4sim.page.editor.text.replace('delivered 6144', 'delivered 1')")
    test.settle()
    test.wanted(browser.value("document.querySelectorAll('.mark-missed').length") == 1 and "status 1" in test.text("status"),
                "a call that is not met is not marked")
    kept = browser.value("sel4sim.page.editor.text")
    test.open()
    test.wanted(browser.value("sel4sim.page.editor.text") == kept, "a reload does not keep the set-up")
    address = nothing_lost.address_of(test)
    browser.value("sel4sim.page.openExample('examples', 'two_clients_by_badge')")
    test.settle()
    test.open("#" + address.split("#")[1])
    test.wanted(browser.value("sel4sim.page.editor.text") == kept, "a shared address does not give the set-up")
    browser.value("sel4sim.page.editor.text = 'format = 2\\n'")
    test.settle()
    nothing_lost.reload(test)
    test.wanted(browser.value("sel4sim.page.editor.text") == "format = 2\n", "a reload of a shared address drops what was typed")
    test.open("#" + address.split("#")[1])
    test.wanted(browser.value("sel4sim.page.editor.text") == kept, "a shared address that is opened again does not give the set-up")
    browser.value("document.querySelector('#notice button').click()")
    test.settle()
    test.wanted(browser.value("sel4sim.page.editor.text") == "format = 2\n", "what an address took the place of does not come back")


MARKS = """(() => {
  const { mirror, faulty } = sel4sim.page.editor;
  let marks = 0;
  mirror.eachLine((line) => { if (line.gutterMarkers?.margin) marks += 1; });
  return [marks, faulty[0]?.text ?? null];
})()"""


def marks(test, setups):
    """In each worked set-up each call has a mark in the margin; in one that is refused the line at fault has it."""
    for path in sorted(setups.glob("*/*.toml")):
        topic, name = path.parent.name, path.stem
        _, report, errors = (it if isinstance(it, int) else it.decode() for it in native(test.program, test.folder, ["check"], path.name, path.read_bytes()))
        if not test.browser.value(f"sel4sim.page.data.topics.some(({{ topic, setups }}) => topic === '{topic}'"
                                  f" && setups.some((it) => it.name === '{name}'))"):
            test.wanted(name == "byte_that_is_no_utf8" or build.is_answer(path), f"the menu lacks {topic}/{name}")
            continue
        test.browser.value(f"sel4sim.page.openExample('{topic}', '{name}')")
        test.settle(0)
        if test.browser.value("sel4sim.page.exercise.isOpen"):
            test.browser.value("sel4sim.page.leaveExercise()")
            test.settle(0)
        count, line = test.browser.value(MARKS)
        calls = len(re.findall(r"(?m)^\d+ \d+ \w+: ", report))
        fault = re.match(r"set-up refused \d+ at (?:.* key (\S+)|.*)", report)
        wanted = max(1, len(set(re.findall(r"(?m)^(?! ).*:(\d+):\d+: error: ", errors)))) if fault else calls
        test.wanted(count == wanted, f"{topic}/{name}: {count} marks, and not {wanted}")
        test.wanted((line is not None) == bool(fault), f"{topic}/{name}: the line {line!r} is marked")
        if fault and fault[1] and re.search(rf"(?m)^\s*{re.escape(fault[1])}\s*=", path.read_text()):
            test.wanted(line.startswith(fault[1]), f"{topic}/{name}: the line {line!r} is marked, and not {fault[1]}")


def files(test, stored):
    """A file is opened, and what is saved has the same bytes."""
    browser, folder = test.browser, pathlib.Path(test.folder)
    test.click("#tab-report")
    (folder / "mine.toml").write_bytes(stored)
    test.choose(folder / "mine.toml", "open")
    test.settle()
    test.wanted(browser.value("document.title") == "mine · sel4sim", f"the title is {browser.value('document.title')}")
    test.wanted(test.text("command-line") == "sel4sim check mine.toml", f"the command is {test.text('command-line')}")
    (folder / "saved").mkdir(exist_ok=True)
    browser.call("Browser.setDownloadBehavior", behavior="allow", browserContextId=browser.context,
                 downloadPath=str(folder / "saved"))
    browser.value("document.getElementById('save').click()")
    saved = folder / "saved" / "mine.toml"
    until = time.time() + chromium.SECONDS
    while not saved.exists() and time.time() < until:
        time.sleep(0.1)
    test.wanted(saved.exists() and saved.read_bytes() == stored, f"what is saved: {list((folder / 'saved').iterdir())}")


def tabs(test, _):
    """Each tab shows what its command writes, and the keys lead to the first ten; one behind these is among those that are used less."""
    browser = test.browser
    browser.value("sel4sim.page.openExample('first_format', 'send_then_receive')")
    test.settle()
    browser.value("document.getElementById('tab-report').focus()")
    names = browser.value("[...document.querySelectorAll('[role=tab]')].map((tab) => tab.textContent)")
    without_key = browser.value("[...document.querySelectorAll('[role=tab]')].slice(10).map((tab) => tab.classList.contains('rare'))")
    test.wanted(all(without_key), "a tab that is used much has no key")
    for number, name in enumerate(names, 1):
        if number <= 10:
            browser.press(str(number % 10))
        else:
            test.click(f"#tab-{name}")
        test.settle()
        test.wanted(browser.value(f"document.getElementById('tab-{name}').getAttribute('aria-selected')") == "true",
                    f"the key {number} does not lead to the tab {name}")
        test.wanted(browser.value(f"!document.getElementById('panel-{name}').hidden"), f"the tab {name} shows nothing")
    browser.press("2")
    test.settle()
    inside = "document.querySelector('#panel-steps iframe').contentDocument"
    test.wanted("boot, 2 calls" == browser.value(f"{inside}.getElementById('position').textContent"), "the steps are not shown")
    browser.value(f"{inside}.getElementById('on').click()")
    test.wanted("call 1 of 2" == browser.value(f"{inside}.getElementById('position').textContent"), "the steps do not step")
    browser.press(str((names.index("migrate") + 1) % 10))
    test.settle()
    test.wanted("format = 2" in test.text("panel-migrate"), "a set-up is not migrated")
    browser.value("document.querySelector('#panel-migrate button').click()")
    test.settle()
    test.wanted("format = 2" in browser.value("sel4sim.page.editor.text"), "a migrated set-up does not come into the editor")
    browser.press("1")
    test.settle()
    browser.value("document.querySelector('button.line').click()")
    test.wanted(browser.value("document.activeElement.closest('.CodeMirror') !== null"), "a call does not lead to the editor")


TRUSTED_LOADER = ("for ever", "two_clients")


def reasons(test, _):
    """The tab why has the reason of each refused call, and so has the margin of the editor."""
    if not pick(test, "why_lookups", "index_without_its_depth"):
        return
    titles = test.browser.value("[...document.querySelectorAll('.mark-met, .mark-refused')].map((it) => it.title).join('|')")
    test.wanted("no CNode is there" in titles, f"the margin has no reason: {titles!r}")
    test.browser.value("document.getElementById('tab-why').click()")
    test.settle()
    test.wanted(test.browser.value("document.querySelectorAll('#panel-why .reason li').length") > 0, "the tab why has no reason")
    type_option(test, "call", "1")
    test.wanted("not refused" in test.text("panel-why"), f"why of call 1 is {test.text('panel-why')!r}")
    type_option(test, "call", "x")
    test.wanted("status 4" in test.text("status"), f"why of call x ends with {test.text('status')}")
    type_option(test, "call", "")


def audits(test, _):
    """The tab audit draws the channels, tells each thread, and leads to what one revoke would change and back."""
    if not pick(test, "for audit", "engineers_system"):
        return
    browser = test.browser
    type_option(test, "after", "14")
    test.wanted(test.text("command-line") == "sel4sim audit --after 14 engineers_system.toml", test.text("command-line"))
    test.wanted(browser.value("document.querySelectorAll('#panel-audit .wires rect').length") == 4, "other boxes than the threads")
    test.wanted(browser.value("document.querySelectorAll('#panel-audit .wires circle').length") == 3, "other lines than the channels")
    heads = "[...document.querySelectorAll('#panel-audit thead th')].map((it) => it.firstChild.firstChild?.textContent ?? it.textContent).join(', ')"
    wanted = "slot, capability, 2048 @loader, 4096 @driver, 6144 @server, 8192 @client_a, 10240 @client_b"
    test.wanted(browser.value(heads) == wanted, f"the columns are {browser.value(heads)}")
    row = "[...document.querySelectorAll('#panel-audit tbody tr')].find((it) => it.firstChild.textContent === '33312').textContent"
    wanted = "33312endpoint 12288 badge 10 rights w---3, index 1, depth 31"
    test.wanted(browser.value(row) == wanted, f"a slot that one thread reaches and another holds is told as {browser.value(row)}")
    browser.value("[...document.querySelectorAll('.revoke button')].find((it) => it.textContent === 'slot 320').click()")
    test.settle(0.6)
    test.wanted("--after 14 --slot 320" in test.text("command-line"), f"a slot gives {test.text('command-line')}")
    test.wanted(browser.value("document.querySelectorAll('.change').length") == 18, "the changes of a revoke are not told")
    browser.value("document.querySelector('#panel-audit button').click()")
    test.settle(0.6)
    test.wanted(browser.value("document.querySelectorAll('.revoke').length") == 8, "there is no way back from a revoke")


def parts(test, _):
    """The tab ever has a box to tick for each thread, and draws parts and ways."""
    if not pick(test, *TRUSTED_LOADER):
        return
    browser = test.browser
    boxes = "[...document.querySelectorAll('#options input[type=checkbox]')].map((it) => `${it.value} ${it.checked}`).join(', ')"
    wanted = "loader true, client_a false, client_b false, client_c false, loader false, client_a false, client_b false, client_c false"
    test.wanted(browser.value(boxes) == wanted, f"the boxes to tick are {browser.value(boxes)}")
    drawn = "document.querySelectorAll('#panel-ever .wires rect').length"
    test.wanted(browser.value(drawn) == 3, f"{browser.value(drawn)} parts are drawn, and not 3")
    browser.value("document.getElementById('option-messages-client_a').click()")
    test.settle(0.6)
    told = test.text("panel-ever")
    test.wanted("--without loader --messages client_a" in test.text("command-line") and "messages 4096 @client_a" in told, f"who sends is told as {told}")
    browser.value("document.getElementById('option-messages-client_a').click()")
    browser.value("document.getElementById('option-without-client_c').click()")
    test.settle(0.6)
    test.wanted("--without loader,client_c" in test.text("command-line"), f"a second tick gives {test.text('command-line')}")
    test.wanted(browser.value(drawn) == 2, f"{browser.value(drawn)} parts are drawn, and not 2")
    browser.value("document.getElementById('option-without-loader').click()")
    browser.value("document.getElementById('option-without-client_c').click()")
    test.settle(0.6)
    test.wanted(test.text("command-line") == "sel4sim ever two_clients.toml", test.text("command-line"))
    test.wanted(browser.value(drawn) == 1, "without a tick it is not all one part")


def kept_apart(test, _):
    """The tab ever says of two threads whether the one is kept from the other, in words, with the program's lines below."""
    if not pick(test, *TRUSTED_LOADER):
        return
    parts_drawn = test.browser.value("document.querySelectorAll('#panel-ever .wires rect').length")
    for at in (0, 1):
        offered = test.browser.value(f"[...document.getElementById('option-never-{at}').options].map((it) => it.value)")
        test.wanted(offered == ["", "loader", "client_a", "client_b", "client_c"], f"the threads {offered} are offered")
    asked = (("never", "client_a,client_b", "never client_a,client_b --without loader", 0, "excluded", ()),
             ("never", "client_a,client_c", "never client_a,client_c --without loader", 1, "possible decided", ("open 10240", "chain 4096 @client_a -> 10240")),
             ("by", "10240", "never client_a,client_c --without loader --by 10240", 0, "excluded", ()),
             ("never", "loader,client_a", "never loader,client_a --without loader --by 10240", 1, "possible", ("2048 @loader lies in no part",)))
    for name, value, words, status, answer, lines in asked:
        (choose_pair if name == "never" else type_option)(test, name, value)
        test.wanted(test.text("command-line") == f"sel4sim {words} two_clients.toml", f"{name} {value} gives {test.text('command-line')}")
        test.wanted(test.text("status") == f"status {status}", f"{words} ends with {test.text('status')}")
        test.wanted(("it is not excluded" in test.text("ended")) == (status == 1), f"{words}: status {status} is told as {test.text('ended')}")
        told = test.browser.value("document.querySelector('#verdict .tag')?.textContent")
        test.wanted(told == answer, f"{words} is told as {told}")
        for line in lines:
            test.wanted(line in test.text("panel-ever"), f"{words}: {line!r} is not told")
    choose_pair(test, "never", "")
    test.wanted("unexpected argument '--by' found" in test.text("errors"), f"--by without two threads is told as {test.text('errors')!r}")
    type_option(test, "by", "")
    drawn = test.browser.value("document.querySelectorAll('#panel-ever .wires rect').length")
    test.wanted(drawn == parts_drawn == 3, f"without a question {drawn} parts are drawn, and before it {parts_drawn}")


def how_it_happens(test, _):
    """Where it is not excluded, buttons have calls looked for: they are opened at the last one, or the program's line is told; a button leads back."""
    if not pick(test, *TRUSTED_LOADER):
        return
    browser, text = test.browser, test.browser.value("sel4sim.page.editor.text")
    openers = "[...document.querySelectorAll('#panel-ever .opener')].map((it) => it.textContent)"
    choose_pair(test, "never", "client_a,client_c")
    browser.value("document.getElementById('option-messages-client_b').click()")
    test.settle(0.6)
    test.wanted(browser.value(openers) == [] and "With --messages" in test.text("panel-ever"), "with --messages calls are looked for")
    browser.value("document.getElementById('option-messages-client_b').click()")
    test.settle(0.6)
    command = test.text("command-line")
    test.wanted(browser.value(openers) == ["a message", "a hold", "a loss"], f"what may be looked for is {browser.value(openers)}")
    for place, words in reversed(list(enumerate(([], ["--hold"], ["--loss"])))):
        words = ["how", "client_a,client_c", "--without", "loader", *words]
        status, output, _ = native(test.program, test.folder, words, "two_clients.toml", text.encode())
        browser.value(f"document.querySelectorAll('#panel-ever .opener')[{place}].click()")
        test.settle()
        if status == 1:
            told = browser.value("document.querySelector('#panel-ever [role=status]').textContent")
            test.wanted(told == output.decode(), f"{words}: {told!r} is told, and not {output}")
    opened_at_last_call(test, output.decode(), "how")
    test.wanted(status == 0 and " ".join(words) in test.text("notice"), f"calls are opened with {test.text('notice')!r}")
    browser.value("document.querySelector('#notice button').click()")
    test.settle(0.6)
    test.wanted((browser.value("sel4sim.page.editor.text"), test.text("command-line")) == (text, command), f"the way back leads to {test.text('command-line')}")
    choose_pair(test, "never", "client_a,client_b")
    test.wanted(browser.value(openers) == [], "calls are looked for by which happens what is excluded")


def every_order(test, _):
    """The tab orders tells each call with its answers; a number of an order leads to the call."""
    if not pick(test, "for orders", "cancel_against_send"):
        return
    test.wanted("explore --first 1" in test.text("command-line"), f"the command is {test.text('command-line')}")
    test.wanted(test.browser.value("document.querySelectorAll('#panel-orders .call').length") == 5, "other calls than five")
    test.wanted("in some order" in test.text("ended"), f"status 1 is told as {test.text('ended')}")
    test.browser.value("document.querySelector('#panel-orders .step').click()")
    test.wanted(test.browser.value("document.activeElement.closest('.CodeMirror') !== null"), "an order does not lead to its calls")
    opens_an_order(test)
    type_option(test, "states", "3")
    test.wanted("limit calls" in test.text("panel-orders"), "a limit is not told")


def opens_an_order(test):
    """An order is opened as the set-up that the native program writes for it, and a button leads back."""
    browser, command, text = test.browser, test.text("command-line"), test.browser.value("sel4sim.page.editor.text")
    words = ["explore", "--first", "1", "--witness", browser.value("document.querySelector('.missed-answer .dim').textContent")]
    status, output, _ = native(test.program, test.folder, words, "cancel_against_send.toml", text.encode())
    browser.value("document.querySelector('#panel-orders .opener').click()")
    test.settle(0.6)
    test.wanted(status == 0 and browser.value("sel4sim.page.editor.text") == output.decode(), "an order is opened as another set-up")
    test.wanted("cancel_against_send." in test.text("command-line") and "not met" in test.text("panel-report"),
                f"an order is opened with {test.text('command-line')}: {test.text('ended')}")
    browser.value("document.querySelector('#notice button').click()")
    test.settle(0.6)
    test.wanted((browser.value("sel4sim.page.editor.text"), test.text("command-line")) == (text, command),
                f"the way back leads to {test.text('command-line')}")


def graph(test, _):
    """The tab tree writes a graph where its box is ticked."""
    if not pick(test, "examples", "two_clients_by_badge"):
        return
    test.browser.value("document.getElementById('tab-tree').click()")
    test.settle()
    test.browser.value("document.getElementById('option-dot').click()")
    test.settle(0.6)
    test.wanted(test.text("command-line") == "sel4sim tree --dot two_clients_by_badge.toml", f"a graph is asked for by {test.text('command-line')}")
    test.wanted(test.text("panel-tree").startswith("digraph"), f"a graph is written as {test.text('panel-tree')[:40]!r}")
    test.browser.value("document.getElementById('option-dot').click()")
    test.settle(0.6)
    test.wanted(test.text("command-line") == "sel4sim tree two_clients_by_badge.toml", "the graph cannot be taken back")


def new_tabs(test, stored):
    """The tabs with options, at two widths."""
    for width in (1280, 390):
        test.browser.resize(width, 844)
        for check in (reasons, audits, parts, kept_apart, how_it_happens, every_order, graph):
            check(test, stored)
            wide = test.browser.value("document.documentElement.scrollWidth")
            test.wanted(wide <= width, f"{check.__name__}: a window of {width} is overrun: {wide}")
    test.browser.resize_back()


def reading(test, _):
    """Roles and names, the keys by a question mark, a print, both themes, and no width that is overrun."""
    browser = test.browser
    found = {}
    for node in browser.call("Accessibility.getFullAXTree")["nodes"]:
        role = node.get("role", {}).get("value")
        if role in CONTROLS and not node.get("ignored"):
            found.setdefault(role, []).append(node.get("name", {}).get("value", ""))
    for role in CONTROLS:
        test.wanted(role in found, f"nothing has the role {role}")
        test.wanted(role == "main" or "" not in found.get(role, []), f"something of the role {role} has no name")
    browser.value("document.getElementById('tab-report').focus()")
    browser.press("?")
    test.wanted(browser.value("document.getElementById('keys').open"), "the question mark does not show the keys")
    browser.press("Escape")
    test.wanted(not browser.value("document.getElementById('keys').open"), "Escape does not close the keys")
    test.wanted(len(browser.call("Page.printToPDF")["data"]) > 10_000, "the print is empty")
    light = browser.value("getComputedStyle(document.body).backgroundColor")
    browser.call("Emulation.setEmulatedMedia", features=[{"name": "prefers-color-scheme", "value": "dark"}])
    test.wanted(browser.value("getComputedStyle(document.body).backgroundColor") != light, "the dark theme is not dark")
    browser.call("Emulation.setEmulatedMedia", features=[])
    for width in (390, 800, 1280, 1900):
        browser.resize(width, 844)
        wide = browser.value("document.documentElement.scrollWidth")
        test.wanted(wide <= width, f"a window of {width} is overrun: {wide}")
    browser.resize_back()


def trapped(test, _):
    """A run that the browser ends is told as such, and the set-up is still there."""
    kept = test.browser.value("sel4sim.page.editor.text")
    test.browser.value("sel4sim.page.answers.show(sel4sim.page.tab, { trap: 'RangeError: too much recursion', milliseconds: 1, memory: 0,"
                       " output: new Uint8Array(), errors: new Uint8Array() })")
    told = test.text("status") + ": " + test.text("ended")
    test.wanted("ended by the browser: RangeError" in told and "out of stack" in told, f"a trap is told as {told}")
    test.wanted(test.browser.value("sel4sim.page.editor.text") == kept, "a trap takes the set-up away")


def nothing_leaves(test, _):
    asked = [it for it in test.browser.asked if not it.startswith((test.site.as_uri(), "blob:", "about:", "data:"))]
    test.wanted(not asked and not test.browser.recorder.asked, f"it asked for {asked}, {test.browser.recorder.asked}")
    test.wanted(not test.browser.complaints, f"the page complains: {test.browser.complaints[:3]}")


def pictures(test, folder):
    """Pictures of the page to look at."""
    browser = test.browser
    folder.mkdir(parents=True, exist_ok=True)
    for width, height in ((1280, 800), (390, 844)):
        for theme in ("light", "dark"):
            browser.resize(width, height)
            browser.call("Emulation.setEmulatedMedia", features=[{"name": "prefers-color-scheme", "value": theme}])
            test.open()
            for name, setup in (("report", "revocation_of_badged_copies"), ("steps", "revocation_of_badged_copies"),
                                ("migrate", "two_clients_by_badge"), ("threads", "three_clients")):
                browser.value(f"sel4sim.page.openExample('examples', '{setup}')")
                browser.value(f"document.getElementById('tab-{name}').click()")
                test.settle()
                picture(browser, folder / f"{name}_{width}_{theme}.png")
            for name, topic, setup in (("why", "why_lookups", "index_without_its_depth"), ("audit", "for audit", "engineers_system"),
                                       ("ever", *TRUSTED_LOADER), ("orders", "for orders", "two_locks")):
                browser.value(f"sel4sim.page.openExample('{topic}', '{setup}')")
                browser.value(f"document.getElementById('tab-{name}').click()")
                test.settle()
                picture(browser, folder / f"{name}_{width}_{theme}.png")
            browser.value("document.getElementById('tab-report').click()")
            for what, topic, setup in (("refused", "refused", "operation_that_does_not_exist"),
                                       ("missed", "expectations", "expectation_not_met")):
                browser.value(f"sel4sim.page.openExample('{topic}', '{setup}')")
                test.settle()
                picture(browser, folder / f"{what}_{width}_{theme}.png")
            sheets.pictured(test, lambda what: picture(browser, folder / f"exercise_{what}_{width}_{theme}.png"))
    for name in ("keys", "about"):
        browser.value(f"document.getElementById('{name}').showModal()")
        picture(browser, folder / f"{name}.png")
        browser.value(f"document.getElementById('{name}').close()")
    browser.resize_back()
    browser.call("Emulation.setEmulatedMedia", features=[])
    browser.call("Emulation.setEmulatedMedia", media="print")
    picture(browser, folder / "print.png")
    browser.call("Emulation.setEmulatedMedia", media="")


def picture(browser, path):
    time.sleep(0.3)
    path.write_bytes(base64.b64decode(browser.call("Page.captureScreenshot")["data"]))


def in_firefox(program, folder, stored):
    """The page runs, marks a fault and steps in firefox too; what it answers is the native program's."""
    browser = firefox.Firefox()
    try:
        test = Tester(browser, program, folder)
        browser.open(SITE.as_uri())
        test.settle()
        test.wanted("delivered 6144 from 2048" in test.text("panel-report"), f"firefox: {test.text('ended')}")
        for name, text in (("a.toml", stored), ("b.toml", b"format = 2\nx = 1\n")):
            given = test.run_bytes(SUBCOMMANDS, name, text)
            for words, answer in zip(SUBCOMMANDS, given):
                test.compare(f"firefox, {name}", words, name, text, {key: it for key, it in answer.items() if it is not None})
        browser.value("document.getElementById('tab-steps').click()")
        test.settle()
        inside = "document.querySelector('#panel-steps iframe')?.contentDocument"
        test.until(f"{inside}?.getElementById('position')?.textContent === 'call 1 of 2'", "firefox: the first visit does not see the first call")
        browser.value("sel4sim.page.editor.text = 'format = 2\\nlable = 1\\n'")
        test.settle()
        test.wanted(browser.value("document.querySelectorAll('.faulty').length") == 1, "firefox: a fault is not marked")
        test.forget()
        pick(test, "examples", "send_then_receive")
        test.click("#tab-steps")
        nothing_lost.refused_then_good(test)
        for check in (gives_nothing_away.double_click_in_firefox, what_if.each_operation, what_if.branch, asked_by_hand.each_by_keys, goals_reached.by_pointing,
                      goals_reached.other_text, goals_reached.each_by_keys, in_bits.by_keys, helped.by_keys):
            check(test, stored)
        print("firefox: " + ("with faults" if test.faults else "all right"), flush=True)
        return test.faults
    finally:
        browser.close()


def exercises_in_firefox(program, folder):
    """Each exercise, in a wide light window and in a dark one that is as narrow as firefox makes it."""
    faults = []
    for preferences, width in (("", 1280), (firefox.DARK, 390)):
        browser = firefox.Firefox(preferences)
        try:
            test = Tester(browser, program, folder)
            browser.resize(width, 844)
            browser.open(SITE.as_uri())
            test.settle()
            sheets.in_firefox(test)
            inner = browser.value("window.innerWidth")
            print(f"firefox, {inner} pixels: each exercise " + ("with faults" if test.faults else "all right"), flush=True)
            faults += test.faults
        finally:
            browser.close()
    return faults


def main():
    missing = list(needs())
    if missing:
        print("make browser-test needs " + ", ".join(missing))
        return 1
    program, setups = os.path.abspath(sys.argv[1]), pathlib.Path(sys.argv[2])
    stored = (setups / "examples" / "send_then_receive.toml").read_bytes()
    folder = tempfile.mkdtemp(prefix="browser_test_")
    browser = chromium.Chromium.started(width=1280, height=800)
    test = Tester(browser, program, folder)
    is_short = "--short" in sys.argv
    try:
        test.open()
        if folder_of_pictures := option("--pictures"):
            pictures(test, pathlib.Path(folder_of_pictures))
            test.open()
        same_answers(test, setups)
        marks(test, setups)
        for check in (same_with_options, typing, *first_minute.CHECKS, *nothing_lost.CHECKS, *gives_nothing_away.CHECKS, *helped.CHECKS, *sheets.CHECKS, *teacher.CHECKS,
                      *hearing.CHECKS, *lectures.CHECKS, *drawn.CHECKS, *what_if.CHECKS, *asked_by_hand.CHECKS,
                      *goals_reached.CHECKS, *in_bits.CHECKS, *held.CHECKS, files, tabs, new_tabs, reading, trapped, nothing_leaves):
            check(test, stored)
        if not is_short:
            hostile(test, setups, stored)
            nothing_leaves(test, stored)
    finally:
        browser.close()
    faults = test.faults + longest(program, folder, stored) + in_firefox(program, folder, stored) + exercises_in_firefox(program, folder)
    shutil.rmtree(folder)
    print(f"{len(faults)} faults")
    return 1 if faults else 0


if __name__ == "__main__":
    sys.exit(main())
