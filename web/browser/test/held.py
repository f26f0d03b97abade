"""Policies and layouts on the page: the second editor with what breaks a policy at its lines, the calls by which it is broken, and
set-ups made of layouts."""
import base64
import json
import pathlib
import re
import subprocess

from tester import FORGET, TOP, as_answer, opened_at_last_call, pick

POLICIES = TOP / "tests" / "answers" / "policies"
LAYOUTS = TOP / "tests" / "layouts"
SECONDS = 600
# The program in the page with a set-up and a policy, each as base64.
HELD = """(async () => {
  const from64 = (text) => Uint8Array.from(atob(text), (letter) => letter.charCodeAt(0));
  const to64 = (bytes) => btoa(Array.from(bytes, (byte) => String.fromCharCode(byte)).join(""));
  const [words, name, text, policy, policyText] = ASKED;
  const { status, trap, output, errors } = await sel4sim.run(words, name, from64(text), [{ name: policy, bytes: from64(policyText) }]);
  return { status, trap, output: to64(output), errors: to64(errors) };
})()"""
FAULTY = "[...document.querySelectorAll('#policy .faulty')].length"
TITLES = "[...document.querySelectorAll('PLACE .mark-missed')].map((it) => it.title)"
SETUP = "sel4sim.page.editor.text"
# What the policy's tab is shown: a text, and what stands on standard error.
ANSWERED = """(() => {
  const [output, errors] = TOLD.map((text) => new TextEncoder().encode(text));
  sel4sim.page.answers.show(sel4sim.page.tab, { status: 1, output, errors, milliseconds: 1, memory: 0 });
})()"""
# The signs in the margin of the set-up that a note or a fault has made, by line, with their words.
NOTED = """(() => {
  const found = {};
  sel4sim.page.editor.mirror.eachLine((line) => {
    const mark = line.gutterMarkers?.margin;
    if (mark && / noted| faulty/u.test(` ${line.bgClass ?? ""}`)) found[line.lineNo() + 1] = [mark.className, mark.textContent, mark.title];
  });
  return found;
})()"""
PLACED_IN_SETUP = "(?m)^{}:(\\d+):\\d+: (?:error|note): "
# The breaches of which it is asked how they happen.
TO_COME = re.compile("breach (?:way|badge|waiting|joined) ")


def packed(path):
    return base64.b64encode(path.read_bytes()).decode()


def breaches(name):
    """The lines of what breaks a worked policy."""
    return re.findall("(?m)^breach .*", (POLICIES / f"{name}.out").read_text())


def natively(test, *words):
    return subprocess.run([test.program, *words], cwd=POLICIES, stdin=subprocess.DEVNULL, capture_output=True, timeout=SECONDS)


def same_as_native(test, _):
    """Each worked policy and how each of its breaches happens, and one behind the last, in the page's own worker: standard output,
    standard error and status of the native program."""
    count = 0
    for policy in sorted(POLICIES.glob("*.policy.toml")):
        name = policy.name.removesuffix(".policy.toml")
        setup = policy.with_name(f"{name}.toml")
        for how in ([], *(["--how", str(number + 1)] for number in range(len(breaches(name)) + 1))):
            words = ["policy", policy.name, *how, setup.name]
            ran = natively(test, *words)
            asked = [words, setup.name, packed(setup), policy.name, packed(policy)]
            given = as_answer(test.browser.value(HELD.replace("ASKED", json.dumps(asked))))
            test.wanted(given == (ran.returncode, ran.stdout, ran.stderr), f"{words}: {given}, natively {ran.returncode}, {ran.stdout}, {ran.stderr}")
            count += 1
    for layout in sorted((*LAYOUTS.glob("*.cdl"), *LAYOUTS.glob("*.system"), *LAYOUTS.glob("wrong/*.cdl"), *LAYOUTS.glob("wrong/*.system"))):
        test.compare("a layout", ["import"], layout.name, layout.read_bytes(), test.run_bytes([["import"]], layout.name, layout.read_bytes())[0])
        count += 1
    print(f"{count} policies and layouts compared with the native program's", flush=True)


def held(test, _):
    """A worked policy opens in the tab with its own editor; what breaks it is marked at its line, and goes when it is mended."""
    browser = test.browser
    if not pick(test, "for policy", "badge_zero"):
        return
    test.wanted(browser.value("document.getElementById('policy').offsetParent !== null"), "the policy is not in sight")
    test.wanted("status 1" in test.text("status") and "the policy is broken" in test.text("ended"), f"a broken policy: {test.text('status')}, {test.text('ended')}")
    test.wanted("policy badge_zero.policy.toml badge_zero.toml" in test.text("command-line"), f"the command is {test.text('command-line')}")
    told = browser.value(TITLES.replace("PLACE", "#policy"))
    wanted = [line.split(": error: ")[1] for line in (POLICIES / "badge_zero.err").read_text().splitlines() if line.startswith("badge_zero.policy.toml:")]
    test.wanted(told and all(any(one in it for it in told) for one in wanted), f"the margin of the policy says {told}, and not {wanted}")
    line = browser.value("sel4sim.page.policy.editor.told.keys().next().value")
    test.wanted(line == 4, f"the breach is at line {line}, counted from 0")
    mended = (POLICIES / "badge_zero.policy.toml").read_text().replace("badge = 10", 'badge = "any"')
    browser.value(f"sel4sim.page.policy.editor.mirror.setValue({json.dumps(mended)})")
    test.settle(0.6)
    test.wanted(browser.value(FAULTY) == 0 and "status 0" in test.text("status"), f"the policy is mended, and the page says {test.text('status')}")


NOTES = """badge_zero.policy.toml:5:3: error: client_a may use @ep1 with badge any; the policy lets it have 10
badge_zero.toml:LINE:1: note: call 3 fills @cn_a[1]
badge_zero.toml:LINE:1: note: from: call 3 fills @cn_a[1]
layout.system:7:1: note: cn_a[1] = ep1 (W)
another.toml:1:1: note: call 1 fills slot 5
"""
PLACES = """breach badge client_a @ep1 badge any rights w--- allowed 10
  slot @cn_a[1] call 3
  slot @cn_a[1] call 3 under slot 96 call 1
  slot 96 boot
"""


def notes(test, _):
    """A note is marked at its line of the set-up, beside what the call there was answered and with the breach that it belongs to, and
    not in another tab; below a breach a call leads to its lines."""
    browser = test.browser
    if not pick(test, "for policy", "badge_zero"):
        return
    line = 1 + browser.value(f"{SETUP}.split('\\n').map((it, at) => [it, at]).filter(([it]) => it.startsWith('[[call]]'))[2][1]")
    told = [f"breach way{PLACES[len('breach badge'):]}", NOTES.replace("LINE", str(line))]
    browser.value(ANSWERED.replace("TOLD", json.dumps(told)))
    noted = browser.value(NOTED)
    test.wanted(list(noted) == [str(line)] and noted[str(line)][:2] == ["mark-noted", "i"], f"notes are marked as {noted}, and not at line {line}")
    words = noted.get(str(line), ["", "", ""])[2].split("\n")
    breach = "; of: client_a may use @ep1 with badge any; the policy lets it have 10"
    wanted = [f"call 3 fills @cn_a[1]{breach}", f"from: call 3 fills @cn_a[1]{breach}"]
    test.wanted(words[0].startswith("call 3: ") and words[1:] == wanted, f"a note is told as {words}")
    drawn = browser.value("[...document.querySelectorAll('#panel-policy .line')].map((it) => it.textContent)")
    test.wanted(drawn[1:] == PLACES.split("\n")[1:-1], f"the places of a breach are drawn as {drawn}")
    steps = browser.value("[...document.querySelectorAll('#panel-policy .step')].map((it) => it.textContent)")
    test.wanted(steps == ["call 3", "call 3", "call 1"], f"{steps} lead to calls")
    test.click("#panel-policy .step")
    cursor = browser.value("sel4sim.page.editor.mirror.getCursor().line + 1")
    test.wanted(cursor == line and browser.value("document.activeElement.closest('#editor') !== null"), f"a place leads to line {cursor}, and not to {line}")
    browser.press("F2")
    test.until("document.getElementById('heard').textContent.includes('call 3 fills @cn_a[1]; of: client_a')", "a note is not said")
    test.click("#tab-report")
    test.settle()
    test.wanted(browser.value(NOTED) == {}, "a note stays in another tab")


def noted_as_written(test, _):
    """Of each worked policy what standard error says of the set-up's lines is marked there, and nothing else."""
    for policy in sorted(POLICIES.glob("*.policy.toml")):
        name = policy.name.removesuffix(".policy.toml")
        if not policy.with_name(f"{name}.err").exists() or not pick(test, "for policy", name):
            continue
        browser, written = test.browser, natively(test, "policy", policy.name, f"{name}.toml")
        found = re.findall(PLACED_IN_SETUP.format(re.escape(f"{name}.toml")), written.stderr.decode())
        told = browser.value(NOTED)
        test.wanted(written.returncode == 2 or set(told) == set(found), f"{name}: lines {sorted(told)} are marked, and told are {found}")


def by_which_calls(test, _):
    """Each breach by calls to come has a button that has them looked for, and no other breach has one."""
    for policy in sorted(POLICIES.glob("*.policy.toml")):
        name = policy.name.removesuffix(".policy.toml")
        if not pick(test, "for policy", name):
            continue
        asked = [(number, line) for number, line in enumerate(breaches(name), 1) if TO_COME.match(line)]
        told = test.browser.value("[...document.querySelectorAll('#panel-policy .opener')].map((it) => it.parentElement.firstChild.textContent)")
        test.wanted(told == [line for _, line in asked], f"{name}: calls are looked for of {told}, and not of {asked}")
        for place, (number, _) in enumerate(asked):
            opens_how(test, name, place, number)


def opens_how(test, name, place, number):
    """Of a breach it is opened what the native program writes, at its last call, and a button leads back; or its words are told."""
    browser, shown = test.browser, "[sel4sim.page.editor.text, sel4sim.page.policy.text, document.getElementById('command-line').textContent]"
    before, ran = browser.value(shown), natively(test, "policy", f"{name}.policy.toml", "--how", str(number), f"{name}.toml")
    browser.value(f"document.querySelectorAll('#panel-policy .opener')[{place}].click()")
    test.settle()
    if ran.returncode != 0:
        told = browser.value(f"document.querySelectorAll('#panel-policy [role=status]')[{place}].textContent")
        test.wanted(told == (ran.stdout or ran.stderr).decode(), f"{name}, breach {number}: {told!r} is told, and not {ran.stdout}, {ran.stderr}")
        return
    opened_at_last_call(test, ran.stdout.decode(), f"{name}, breach {number}")
    test.click("#notice button")
    test.settle(0.6)
    test.wanted(browser.value(shown) == before, f"{name}: the way back leads to {test.text('command-line')}")


def kept(test, _):
    """A policy that was typed comes back after a reload, and is in the address; another set-up has its own."""
    browser = test.browser
    if not pick(test, "for policy", "two_clients"):
        return
    browser.value("sel4sim.page.policy.editor.mirror.replaceRange('# mine\\n', { line: 0, ch: 0 })")
    test.settle(0.6)
    test.open()
    test.wanted(browser.value("sel4sim.page.policy.text").startswith("# mine\n"), "a reload loses the policy")
    fragment = browser.value("(async () => { await sel4sim.page.sharing.draw(); const { value } = document.getElementById('address');"
                             " return value.slice(value.indexOf('#')); })()")
    browser.value(FORGET)
    test.open(fragment)
    test.until("sel4sim.page.policy.text.startsWith('# mine')", "the address has no policy")
    test.settle()
    test.wanted(browser.value("sel4sim.page.tab.name") == "policy", "the address opens another tab")
    pick(test, "examples", "send_then_receive")
    test.wanted("# mine" not in browser.value("sel4sim.page.policy.text"), "another set-up has the policy of the one before it")


def opened(test, _):
    """A policy that is opened as a file goes beside the set-up, and a layout becomes a set-up."""
    browser = test.browser
    pick(test, "for policy", "two_clients")
    setup = browser.value(SETUP)
    test.choose(POLICIES / "badge_zero.policy.toml", "open")
    test.until(f"sel4sim.page.policy.text === {json.dumps((POLICIES / 'badge_zero.policy.toml').read_text())}", "a policy from a file is not opened")
    test.settle()
    test.wanted(browser.value(SETUP) == setup, "a policy takes the place of the set-up")
    test.choose(LAYOUTS / "hello_camkes.cdl", "open")
    test.until("document.getElementById('name').value === 'hello_camkes.toml'", "a layout from a file makes no set-up")
    test.settle()
    ran = subprocess.run([test.program, "import", "hello_camkes.cdl"], cwd=LAYOUTS, stdin=subprocess.DEVNULL, capture_output=True, text=True, timeout=SECONDS)
    test.wanted(browser.value(SETUP) == ran.stdout, "the set-up of a layout is another one than the program's")
    test.wanted("status 0" in test.text("status") and "hello_camkes.cdl" in test.text("notice"), f"of a layout the page says {test.text('status')}, {test.text('notice')}")
    test.wanted("frame left out" in test.text("notice"), "what is left out of a layout is not told")
    browser.value("[...document.querySelectorAll('#notice button')].at(-1).click()")
    test.until("document.getElementById('name').value === 'hello_camkes.cdl'", "nothing leads back to the layout")
    test.settle()
    test.wanted(browser.value(SETUP) == (LAYOUTS / "hello_camkes.cdl").read_text(), "the layout is another one")


def rights_chosen(test, _):
    """Of a .system file the rights that it does not say can be chosen: all are taken at first; a choice makes the set-up anew, and the layout
    is read by it."""
    browser = test.browser
    pick(test, "examples", "send_then_receive")
    test.choose(LAYOUTS / "hello.system", "open")
    test.until("document.getElementById('name').value === 'hello.toml' && document.getElementById('import-rights')", "no rights can be chosen for a .system file")
    test.settle()
    for chosen, said in (("least", "assumed rights least"), ("", "assumed rights all")):
        browser.value(f"(() => {{ const it = document.getElementById('import-rights'); it.value = {chosen!r}; it.dispatchEvent(new Event('change')); }})()")
        test.until(f"{SETUP}.includes({said!r}) && document.getElementById('import-rights')?.value === {chosen!r}", f"the choice {chosen!r} makes no set-up of the {said}")
        test.settle()
    browser.value("(() => { const it = document.getElementById('import-rights'); it.value = 'least'; it.dispatchEvent(new Event('change')); })()")
    test.until(f"{SETUP}.includes('assumed rights least')", "the least rights are not taken")
    test.settle()
    browser.value("[...document.querySelectorAll('#notice button')].find((it) => it.textContent === 'see the layout').click()")
    test.until("document.getElementById('name').value === 'hello.system'", "nothing leads back to the layout")
    test.settle()
    told = test.text("command-line")
    test.wanted(told == "sel4sim import --rights least hello.system", f"the layout is read by {told!r}")
    test.choose(LAYOUTS / "hello_camkes.cdl", "open")
    test.until("document.getElementById('name').value === 'hello_camkes.toml'", "a layout from a file makes no set-up")
    test.wanted(not browser.value("document.getElementById('import-rights') !== null"), "rights can be chosen for capDL text")


def faulty(test, _):
    """A layout with faults stays in the editor, each fault at its line."""
    browser = test.browser
    for layout in sorted(LAYOUTS.glob("wrong/*.cdl"))[:4]:
        ran = subprocess.run([test.program, "import", layout.name], cwd=layout.parent, stdin=subprocess.DEVNULL, capture_output=True, text=True, timeout=SECONDS)
        lines = set(map(int, re.findall(r"(?m)^(?! ).*:(\d+):\d+: error: ", ran.stderr)))
        test.choose(layout, "open")
        test.until(f"document.getElementById('name').value === {json.dumps(layout.name)}", f"{layout.name} is not opened")
        test.settle()
        test.until("document.getElementById('status').textContent === 'status 2'", f"{layout.name}: {test.text('status')}")
        told = set(browser.value("[...sel4sim.page.editor.told.keys()].map((line) => line + 1)"))
        test.wanted(told == lines and lines, f"{layout.name}: faults are marked at {sorted(told)}, and are at {sorted(lines)}")


CHECKS = (same_as_native, held, notes, noted_as_written, by_which_calls, kept, opened, rights_chosen, faulty)
