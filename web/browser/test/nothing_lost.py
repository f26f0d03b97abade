"""Nothing that a reader wrote or looked at is lost: by a fault, by another set-up, by an address, by a reload."""
import json

import chromium
from tester import FORGET, pick, type_option

FRAME = "document.querySelector('#panel-steps iframe')"
INSIDE = f"{FRAME}.contentDocument"
SHOWN = f"Number({INSIDE}.getElementById('range').value)"
POINTED = "[...document.querySelectorAll('.CodeMirror-linebackground.pointed')].length"
EDITOR = "sel4sim.page.editor"
LEFT = "[...document.querySelectorAll('#examples .left option')].map((it) => it.textContent.split(' · ')[0]).join(', ')"


def steps_come(test, name):
    """Waits until the steps show the boot of a set-up."""
    inside = f"{FRAME}?.contentDocument"
    test.until(f"{inside}?.getElementById('name')?.textContent === {json.dumps(name)}"
               f" && {inside}.getElementById('position').textContent.startsWith('boot')", f"the steps of {name} do not come")


def at_step(test, number):
    """Opens an example at one of its steps."""
    pick(test, "examples", "revocation_of_badged_copies")
    test.click("#tab-steps")
    test.settle()
    test.browser.value("document.activeElement.blur()")
    steps_come(test, "revocation_of_badged_copies")
    test.wanted(test.browser.value(SHOWN) == 0, "an example does not begin with the boot")
    for _ in range(number):
        test.browser.value(f"{INSIDE}.getElementById('on').click()")
    test.until(f"{POINTED} > 0", "a step marks no line of the set-up")


def type_anew(test, text):
    test.browser.value(f"{EDITOR}.text = {json.dumps(text)}")
    test.settle()


def reload(test):
    test.browser.reload()
    test.settle()


def address_of(test):
    """The address that the page shares."""
    test.browser.value("document.getElementById('address').value = ''")
    test.click("#share")
    test.until("document.getElementById('address').value !== ''", "no address is shared")
    test.click("#shared button:last-child")
    return test.browser.value("document.getElementById('address').value")


def fault_keeps_steps(test, _):
    """A fault leaves the steps where they are, dimmed, and so does its mending; they cannot be scrolled out of sight."""
    browser = test.browser
    at_step(test, 8)
    inside = f"{INSIDE}.documentElement"
    test.wanted(browser.value(f"{inside}.scrollHeight <= {inside}.clientHeight"), "the steps can be scrolled out of sight")
    lines = browser.value(POINTED)
    test.wanted(lines == 6, f"{lines} lines are those of the step's call")
    kept = browser.value(f"{EDITOR}.text")
    type_anew(test, f"{kept}[[call")
    test.wanted("status 2" in test.text("status") and browser.value(SHOWN) == 8, "a fault takes the steps away")
    test.wanted(browser.value("document.querySelector('#panel-steps.old') !== null"), "the answer before a fault is not dimmed")
    test.wanted("the set-up is refused" in test.text("ended") and "the answer before" in test.text("ended"), f"a fault is told as {test.text('ended')}")
    type_anew(test, kept)
    test.wanted(browser.value(SHOWN) == 8, f"behind a fault the steps are at call {browser.value(SHOWN)}")
    test.wanted(browser.value("document.querySelector('.old') === null"), "an answer stays dimmed")


def refused_then_good(test, is_whole=False):
    """A set-up that is refused is opened in the steps, and then a good one."""
    pick(test, "refused", "boot_objects_outside")
    test.wanted("set-up refused 205" in test.text("panel-steps"), "a refusal is not told in the steps")
    if is_whole:
        test.browser.value("sel4sim.page.lecture.project(true)")
    pick(test, "examples", "two_clients_by_badge")
    steps_come(test, "two_clients_by_badge")
    test.wanted("status 0" in test.text("status") and "refused" not in test.text("panel-steps"), f"behind a refusal the steps show {test.text('panel-steps')}")
    test.browser.value("sel4sim.page.lecture.project(false)")


def steps_after_a_refusal(test, _):
    """The steps of a set-up come behind one that was refused, also where others were looked at between, and with the key of the whole
    window; an answer that cannot be drawn is shown as it was written, and not as the one before it."""
    browser = test.browser
    at_step(test, 2)
    for width, is_whole in ((1280, False), (390, False), (1280, True)):
        browser.resize(width, 800)
        refused_then_good(test, is_whole)
    browser.resize_back()
    test.wanted(not browser.complaints, f"behind a refusal the page complains: {browser.complaints[:2]}")
    browser.value("(() => { sel4sim.page.tab.draws = sel4sim.page.tab.show; sel4sim.page.tab.show = () => { throw new Error('of a test'); }; })()")
    pick(test, "examples", "three_clients")
    browser.value("(() => { sel4sim.page.tab.show = sel4sim.page.tab.draws; })()")
    shown = test.text("panel-steps")
    test.wanted("could not be drawn (of a test)" in shown and "trace 2 wide" in shown, f"an answer that cannot be drawn leaves {shown[:80]!r}")
    pick(test, "examples", "three_clients")
    steps_come(test, "three_clients")


# How far the page, the tabs and the frame of the steps can be scrolled, and how broad the page's own scroll bar is.
ROOM = f"""(() => {{
  const [page, tabs, frame] = [document.documentElement, document.getElementById("tabs"), {INSIDE}.documentElement];
  return [page.scrollHeight - page.clientHeight, tabs.scrollWidth - tabs.clientWidth, frame.scrollHeight - frame.clientHeight, innerWidth - page.clientWidth];
}})()"""


def with_scroll_bars(test, _):
    """Where a browser shows scroll bars, none leads out of the steps, and none stands at the page or below the tabs."""
    other = test.alike(chromium.Chromium.started(width=1280, height=800, has_bars=True))
    try:
        other.open()
        for width, is_wide in ((1280, False), (1024, True), (1600, False)):
            other.browser.resize(width, 700)
            other.browser.value(f"sel4sim.page.setWide({json.dumps(is_wide)})")
            for name in ("revocation_of_badged_copies", "layout_of_three_components"):
                pick(other, "examples", name)
                other.click("#tab-steps")
                other.settle()
                steps_come(other, name)
                other.browser.value(f"{INSIDE}.getElementById('last').click()")
                room = other.browser.value(ROOM)
                other.wanted(room == [0, 0, 0, 0], f"{name} at {width}: the page, the tabs and the steps can be scrolled by {room[:3]}, bar {room[3]}")
    finally:
        test.faults += other.faults
        other.browser.close()


STILL = f"""(() => {{
  const inside = {INSIDE};
  const [forest, said] = [inside.getElementById("forest"), inside.getElementById("said")];
  const first = inside.querySelector("#forest .node:is(.filled, .emptied, .altered, .moved)");
  return {{ top: Math.round(forest.getBoundingClientRect().top), isCut: said.scrollHeight > said.clientHeight + 1,
    isHidden: first !== null && first.getBoundingClientRect().bottom > {FRAME}.clientHeight }};
}})()"""


def steps_stand_still(test, _):
    """From step to step the forest keeps its place, a refusal's reasons are not cut, and what changed is in sight; also with the
    forest alone in the whole window."""
    browser = test.browser
    for height, is_alone in ((800, False), (720, True)):
        browser.resize(1280, height)
        browser.value(f"sel4sim.page.setWide({json.dumps(is_alone)})")
        for name in ("guarded_address_space", "revocation_of_badged_copies"):
            pick(test, "examples", name)
            test.click("#tab-steps")
            test.settle()
            steps_come(test, name)
            browser.value(f"{INSIDE}.body.toggleAttribute('data-alone', {json.dumps(is_alone)}) && ({INSIDE}.body.dataset.alone = 'forest')")
            told = []
            for _ in range(browser.value(f"Number({INSIDE}.getElementById('range').max)")):
                browser.value(f"{INSIDE}.getElementById('on').click()")
                told.append(browser.value(STILL))
            tops = {it["top"] for it in told}
            test.wanted(len(tops) == 1, f"{name}: the forest stands at {sorted(tops)}")
            for number, it in enumerate(told, 1):
                test.wanted(not it["isCut"] and not it["isHidden"], f"{name}, call {number} at {height}: {it}")
    browser.value(f"{INSIDE}.body.toggleAttribute('data-alone', false)")
    browser.value("sel4sim.page.setWide(false)")
    browser.resize_back()


def cursor_leads_steps(test, _):
    """The steps go to the call that the cursor is put into."""
    at_step(test, 2)
    browser = test.browser
    browser.value(f"{EDITOR}.mirror.focus()")
    browser.value(f"{EDITOR}.mirror.setCursor([...Array({EDITOR}.lines).keys()].filter((line) => {EDITOR}.mirror.getLine(line) === '[[call]]')[4])")
    test.until(f"{SHOWN} === 5", "the steps do not follow the cursor")
    test.until(f"{POINTED} > 0", "the call of the cursor is not marked")


def address_of_home(test, _):
    """A page from a disk shares the address at which it is published, where its head tells one."""
    home = "https://lectures.example/sel4sim.html"
    meta = "document.querySelector('meta[name=sel4sim-home]')"
    test.browser.value(f"{meta}.content = {json.dumps(home)}")
    address = address_of(test)
    test.wanted(address.startswith(f"{home}#"), f"the published page shares {address[:60]}")
    test.browser.value(f"{meta}.content = ''")
    test.wanted(address_of(test) == address.removeprefix(home), "a page that tells no address shares another part")


def address_of_place(test, _):
    """An address leads to the step, and to the tab with its options; that of a file tells no folder."""
    at_step(test, 8)
    browser = test.browser
    address = address_of(test)
    test.wanted(address.startswith("#") and "call=8" in address, f"of a file, and the eighth step, {address[:60]} is shared")
    browser.value(FORGET)
    test.open(address)
    test.until(f"{FRAME}?.contentDocument.getElementById('range')?.value > 0", "an address leads to no step")
    test.wanted(browser.value(SHOWN) == 8, "an address does not lead to its step")
    pick(test, "for audit", "engineers_system")
    type_option(test, "after", "14")
    command, address = test.text("command-line"), address_of(test)
    browser.value(FORGET)
    test.open(address)
    test.wanted(test.text("command-line") == command, f"an address leads to {test.text('command-line')}, and not to {command}")


def way_back(test, _):
    """A set-up that was changed comes back: by the notice, from the list of examples, and where an address took its place."""
    browser = test.browser
    test.forget()
    pick(test, "examples", "two_clients_by_badge")
    address = address_of(test)
    type_anew(test, "# mine\n" + browser.value(f"{EDITOR}.text"))
    test.select("examples", "examples/three_clients")
    test.settle()
    test.wanted(browser.value("document.getElementById('examples').value") == "examples/three_clients", "the list does not say which example is open")
    test.click("#notice button")
    test.settle()
    test.wanted(browser.value(f"{EDITOR}.text.startsWith('# mine')"), "an example takes what was changed away")
    type_anew(test, "# mine\nformat = 2\n")
    test.open(address)
    test.wanted(browser.value(f"!{EDITOR}.text.startsWith('# mine')"), "an address that is opened anew does not give its set-up")
    reload(test)
    test.wanted(browser.value(LEFT) == "two_clients_by_badge.toml, two_clients_by_badge.toml", f"left are {browser.value(LEFT)}")
    test.select("examples", "what you changed/0")
    test.settle()
    test.wanted(browser.value(f"{EDITOR}.text") == "# mine\nformat = 2\n", "what an address took the place of does not come back")


def cut_address(test, _):
    """An address of which a part is missing is told, also one that is put in place of the page's own, and looks as what is wrong does; what
    only tells something looks otherwise."""
    browser = test.browser
    test.forget()
    pick(test, "examples", "revocation_of_badged_copies")
    address = address_of(test)
    colour = "getComputedStyle(document.getElementById('notice')).backgroundColor"
    type_anew(test, "# mine\n" + browser.value(f"{EDITOR}.text"))
    pick(test, "examples", "three_clients")
    test.wanted("back to" in test.text("notice"), "no way back is told")
    looks = [browser.value(colour)]
    test.forget()
    test.open(address[:len(address) // 2])
    test.wanted("a part of it is missing" in test.text("notice"), f"of a cut address is told {test.text('notice')!r}")
    looks.append(browser.value(colour))
    test.wanted(len(set(looks)) == 2, f"what is wrong has the look {looks[1]} of what only tells something")
    test.wanted("delivered 6144" in test.text("panel-report"), "behind a cut address nothing is open")
    test.open()
    browser.value(f"location.hash = {json.dumps(address[1:len(address) // 3])}")
    test.until("document.getElementById('notice').textContent.includes('a part of it is missing')", "a cut address in place of the page's own is not told")


PACKED = """(async () => {
  const text = ("#" + "a".repeat(999) + "\\n").repeat(12_000);
  const stream = new Blob([text]).stream().pipeThrough(new CompressionStream("deflate-raw"));
  const bytes = new Uint8Array(await new Response(stream).arrayBuffer());
  return btoa(Array.from(bytes, (byte) => String.fromCharCode(byte)).join("")).replace(/\\+/gu, "-").replace(/\\//gu, "_").replace(/=+$/u, "");
})()"""


def address_that_unpacks(test, _):
    """A short address that has a text of more than 8 MiB in it is not unpacked, and told."""
    test.forget()
    packed = test.browser.value(PACKED)
    test.wanted(len(packed) < 100_000, f"the address has {len(packed)} letters")
    test.open(f"#name=long.toml&setup={packed}")
    test.wanted("longer than 8 MiB" in test.text("notice"), f"of an address that unpacks to 12 MB is told {test.text('notice')!r}")
    test.wanted(test.browser.value(f"{EDITOR}.text.length") < 100_000, "what it has in it is in the editor")


def two_windows(test, _):
    """Each window keeps its own text over a reload; a new one begins with what was kept last, and what another one changed is left."""
    browser = test.browser
    mine, theirs = "# of the first window\nformat = 2\n", "# of the second window\nformat = 2\n"
    test.forget()
    type_anew(test, mine)
    second, first = browser.another_page()
    try:
        test.open()
        test.wanted(browser.value(f"{EDITOR}.text") == mine, "a new window does not begin with what was kept")
        type_anew(test, theirs)
        browser.use(first)
        reload(test)
        test.wanted(browser.value(f"{EDITOR}.text") == mine, "a reload shows what another window has")
        browser.use(second)
        reload(test)
        test.wanted(browser.value(f"{EDITOR}.text") == theirs, "a reload of the second window shows what the first one has")
        browser.call("Page.close")
    finally:
        browser.use(first)
    reload(test)
    test.wanted(browser.value(f"{EDITOR}.text") == mine, "what was typed is gone with another window")
    left = browser.value("JSON.parse(localStorage.getItem('sel4sim.left')).setups.map(({ text }) => text)")
    test.wanted(theirs in left or mine in left, f"what another window changed is not among {left}")


def long_one_waits(test, stored):
    """A set-up that is long is opened and not run: it runs when its reader says so, as one that is typed does."""
    browser = test.browser
    text = stored.decode() + "# a comment\n" * 20_000
    for tab in ("steps", "report"):
        pick(test, "examples", "send_then_receive")
        test.click(f"#tab-{tab}")
        test.settle()
        browser.value(f"sel4sim.page.open({json.dumps(text)}, 'long.toml')")
        test.settle(0.6)
        told = [test.text(f"panel-{it}") for it in {tab, "report"}]
        test.wanted(all("press run" in it for it in told), f"of a long set-up in {tab} {[it[:80] for it in told]} is shown")
        test.wanted(test.text("status") == "" and "long" in test.text("state"), f"a long set-up is told as {test.text('status')}, {test.text('state')}")
    test.click("#run")
    test.settle()
    test.wanted("delivered 6144" in test.text("panel-report") and test.text("state") == "", f"a long set-up is not run: {test.text('state')}")
    pick(test, "examples", "send_then_receive")
    test.wanted("delivered 6144" in test.text("panel-report"), "behind a long set-up a short one does not run")


def back_leads_back(test, _):
    """Back leads to the set-up before, with its tab, and Forward on; what was changed stays among what was left."""
    browser = test.browser
    test.forget()
    shown = "document.getElementById('name').value"
    before = browser.value("history.length")
    test.select("examples", "examples/three_clients")
    test.settle()
    test.select("examples", "exercises/09_badges")
    test.settle()
    if browser.value("history.length") != before + 2:
        test.say("what is chosen from the list is no entry of the history: Back leaves the page")
        return
    for way, name in (("back", "three_clients"), ("back", "send_then_receive"), ("forward", "three_clients")):
        browser.value(f"history.{way}()")
        test.until(f"{shown} === {json.dumps(name + '.toml')}", f"{way} does not lead to {name}")
        test.settle()
        test.wanted(browser.value("document.getElementById('examples').value") == f"examples/{name}", f"behind {way} the list says {browser.value('document.getElementById(`examples`).value')}")
    type_anew(test, "# mine\n" + browser.value(f"{EDITOR}.text"))
    browser.value("history.back()")
    test.until(f"{shown} === 'send_then_receive.toml'", "Back does not lead back from what was changed")
    test.settle()
    test.click("#notice button")
    test.settle()
    test.wanted(browser.value(f"{EDITOR}.text.startsWith('# mine')"), "Back loses what was changed")


def reason_in_report(test, _):
    """A refusal that was not expected has its reason in the report, and standard error leads to the tab why."""
    pick(test, "mistakes", "send_without_write")
    test.click("#tab-report")
    test.settle()
    test.wanted("needs the right Write" in test.text("panel-report"), "a refusal that was not expected has no reason in the report")
    test.wanted("The state at the end" in test.text("panel-report"), "the state has no heading")
    pick(test, "threads", "caller_suspends_itself")
    test.click("#errors button")
    test.settle()
    test.wanted(test.browser.value("document.body.dataset.tab") == "why", "standard error does not lead to the reasons")
    test.click("#tab-report")
    test.settle()


CHECKS = (fault_keeps_steps, steps_after_a_refusal, with_scroll_bars, steps_stand_still, cursor_leads_steps, address_of_home, address_of_place, way_back,
          cut_address, address_that_unpacks, two_windows, long_one_waits, back_leads_back, reason_in_report)
