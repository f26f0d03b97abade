"""The exercises as a student does them: each is answered by the keyboard alone, first with one answer wrong, marked, mended and
marked again. Before all is right no reply of the report is in the page; then each reply is the report's."""
import json
import pathlib
import re
import tomllib

from nothing_lost import EDITOR, reload
from tester import FORGET, TOP, native

SETUPS = TOP / "tests" / "worked"
CALL = re.compile(r"^(\d+) (\d+ \w+): (.*?)(?: \[met\])?$", re.M)
PART = re.compile(r"(from|to|badge|label|words) (\d+)")
MARKED = re.compile(r"^marks (\d+) of (\d+) open (\d+)\n\Z", re.M)
SHEET = "document.querySelector('.sheet')"
FRAME = "document.querySelector('.beside iframe')?.contentDocument"
MARKING = "(document.querySelector('.marking [role=status]')?.textContent ?? '')"
# What is in the page but the set-ups themselves: the sheet, the steps, the panels and the margin of the editor.
IN_PAGE = f"""[document.getElementById('exercise'), {FRAME}?.body, document.getElementById('panels')].map((it) => it?.textContent ?? '').join('\\n')
  + [...document.querySelectorAll('.CodeMirror-gutter-elt [title]')].map((it) => it.title).join('\\n')"""
# How the indices are read of which an exercise asks the bits, by the numbers of its calls: its guards and slots, and what is not read.
READ = {"03_guards_and_depths": {5: "001 100111", 6: "101 10 10 11", 7: "101 10 01 1", 8: "101 10 01 11 1", 9: "101 10 01 11", 10: "101 10 01 11",
                                 11: "101 10", 12: "101 10 0111"}}
# The field that has the focus: its call, what it asks for, the place of its choice and its choices.
FOCUS = """(() => {
  const it = document.activeElement;
  const number = Number(it.closest('.card')?.value ?? 0);
  return { number, field: it.dataset.field ?? it.textContent, at: it.selectedIndex ?? -1, choices: [...it.options ?? []].map((one) => one.value) };
})()"""


def names():
    return sorted(path.stem for path in (SETUPS / "exercises").glob("*.toml"))


def text_of(folder, name):
    return (SETUPS / folder / f"{name}.toml").read_text()


def answers_of(name):
    """What a key expects, by the numbers of the calls that its exercise asks."""
    calls = tomllib.loads(text_of("exercise_answers", name))["call"]
    return {number: call["expect"] for number, call in enumerate(calls, 1) if "expect" in call}


def replies_of(name):
    """The words of each call and its reply, by its number, as the report of the key has them."""
    report = (SETUPS / "exercise_answers" / f"{name}.report").read_text()
    return {int(number): (words, reply) for number, words, reply in CALL.findall(report)}


def open_exercise(test, name):
    test.browser.value(f"sel4sim.page.openExample('exercises', {json.dumps(name)})")
    test.until(f"sel4sim.page.exercise.text === {json.dumps(text_of('exercises', name))} && !{SHEET}.inert"
               f" && {FRAME}?.getElementById('on')", f"{name} does not open")


def fields_of(answer):
    """What is chosen or typed for an answer, field by field."""
    kind, *rest = answer.split(" ")
    if kind == "refused":
        return {"answer": kind, "reason": rest[0]}
    if kind == "delivered":
        return {"answer": kind, "endpoint": rest[0], **dict(PART.findall(answer))}
    return {"answer": kind}


def choose(test, focus, value):
    """Chooses in the list that has the focus, by arrows."""
    away = focus["choices"].index(value) - focus["at"]
    for _ in range(abs(away)):
        test.browser.press("ArrowDown" if away > 0 else "ArrowUp")


def cuts_of(read):
    """Behind which bits an index is cut that is read so."""
    pieces = read.split(" ")
    return [len("".join(pieces[:count])) for count in range(1, len(pieces))]


def cut(test, cuts):
    """Cuts the bits whose first gap has the focus, by keys: the focus is then behind them."""
    at = 1
    for wanted in cuts:
        for _ in range(wanted - at):
            test.browser.press("ArrowRight")
        test.browser.press(" ")
        at = wanted
    test.browser.press("Tab")


def give(test, number, answer):
    """Answers a call by keys: the focus is on its first field, and then behind its last one. Where bits are asked for, they are read right."""
    if test.browser.value("document.activeElement.matches('.cut')"):
        cut(test, cuts_of(READ[test.browser.value("sel4sim.page.exercise.name").removesuffix(".toml")][number]))
    for field, value in fields_of(answer).items():
        focus = test.browser.value(FOCUS)
        if (focus["number"], focus["field"]) != (number, field):
            test.say(f"call {number}: the focus is on {focus['field']!r} of call {focus['number']}, and not on {field}")
            return
        if focus["choices"]:
            choose(test, focus, value)
        else:
            test.browser.insert(value)
        test.browser.press("Tab")
    # Behind the fields there is the way to the rule.
    test.wanted(test.browser.value("document.activeElement.textContent") == "rule", f"call {number}: no Tab leads to its rule")
    test.browser.press("Tab")


def press_button(test, words):
    """Goes on with Tab to a button, and presses it."""
    for _ in range(8):
        if test.browser.value("document.activeElement.textContent") == words:
            test.browser.press(" ")
            return
        test.browser.press("Tab")
    test.say(f"no Tab leads to {words!r}")


def focus_first(test):
    test.browser.value("document.querySelector('.card:not([hidden]) :is(.cut:not(:disabled), .prediction select)').focus()")


def hides_replies(test, name, asked, when):
    """Neither the report's lines of the calls that ask nor their replies stand in the page."""
    page, sheet = test.browser.value(IN_PAGE), test.browser.value(f"{SHEET}.textContent")
    for number, (words, reply) in replies_of(name).items():
        is_told = f"{number} {words}: {reply}" in page or " " in reply and reply in sheet
        test.wanted(number not in asked or not is_told, f"{name}: call {number} is told {when}: {reply}")
    test.wanted(test.browser.value("document.querySelectorAll('.answered, .because, .sheet .reason').length") == 0, f"{name}: answers stand in the sheet {when}")
    calls = test.browser.value(f"{FRAME}.getElementById('position').textContent")
    test.wanted(calls.endswith(f" {min(asked) - 1}") or calls == f"boot, {min(asked) - 1} calls", f"{name}: the steps show {calls} {when}")


def wrong_for(answer):
    return "refused 101" if answer != "refused 101" else "refused 100"


def same_marks(test, name, text, counts):
    """The program marks a text natively and in the page by the same lines: so many right, of so many, so many open."""
    given = test.run_bytes([["marks"]], f"{name}.toml", text.encode())[0]
    test.compare(name, ["marks"], f"{name}.toml", text.encode(), {key: it for key, it in given.items() if it is not None})
    _, output, _ = native(test.program, test.folder, ["marks"], f"{name}.toml", text.encode())
    found = MARKED.search(output.decode())
    test.wanted(found and tuple(map(int, found.groups())) == counts, f"{name}: {output.decode()[-40:]!r} is not {counts}")


def do_exercise(test, name):
    """One answer is wrong at first. What the sheet counts the native program counts."""
    browser, answers = test.browser, answers_of(name)
    first = min(answers)
    open_exercise(test, name)
    hides_replies(test, name, answers, "before an answer")
    focus_first(test)
    for number, answer in answers.items():
        give(test, number, wrong_for(answer) if number == first else answer)
    press_button(test, "mark my answers")
    test.until("document.querySelector('.card.wrong, .answered')", f"{name}: nothing is marked")
    wrong = browser.value("[...document.querySelectorAll('.card.wrong')].map((it) => it.value)")
    right = browser.value("document.querySelectorAll('.card.right').length")
    test.wanted((wrong, right) == ([first], len(answers) - 1), f"{name}: with call {first} wrong, {wrong} are marked as wrong and {right} right")
    test.wanted(f"{right} of {len(answers)} right" in browser.value(MARKING), f"{name}: {browser.value(MARKING)}")
    hides_replies(test, name, answers, "when one is wrong")
    same_marks(test, name, browser.value("sel4sim.page.exercise.answeredText"), (right, len(answers), 0))
    give(test, first, answers[first])
    press_button(test, "mark again")
    test.until("document.querySelector('.answered')", f"{name}: no answers are shown")
    shows_replies(test, name, answers)


def shows_replies(test, name, answers):
    """All is marked right, and each call that is shown has the report's reply, its reason and the way to its step."""
    browser = test.browser
    wanted = f"{len(answers)} of {len(answers)} right, {len(answers) - 1} at the first try."
    test.wanted(browser.value(MARKING).startswith(wanted), f"{name}: at the end {browser.value(MARKING)!r}")
    shown = browser.value("[...document.querySelectorAll('.card')].map((it) => [it.value, it.querySelector('.answered b')?.textContent,"
                          " it.querySelector('.reason') !== null])")
    for number, reply, has_reason in shown:
        test.wanted(reply == replies_of(name)[number][1], f"{name}: call {number} is told as {reply}")
        test.wanted(has_reason == reply.startswith("refused"), f"{name}: call {number}, {reply}: a reason {has_reason}")
    number = max(answers)
    browser.value(f"[...document.querySelectorAll('.card')].find((it) => it.value === {number}).querySelector('.outcome .link').click()")
    test.until(f"{FRAME}.getElementById('position').textContent.startsWith('call {number} of ')", f"{name}: no way to call {number}")


def each_exercise(test, _):
    """All of them at two widths, the one light and the other one dark."""
    browser = test.browser
    for width, theme in ((1280, "light"), (390, "dark")):
        browser.resize(width, 844)
        browser.call("Emulation.setEmulatedMedia", features=[{"name": "prefers-color-scheme", "value": theme}])
        test.forget()
        for name in names():
            do_exercise(test, name)
            wide = browser.value("document.documentElement.scrollWidth")
            test.wanted(wide <= width, f"{name}: a window of {width} is overrun: {wide}")
        row = browser.value("[...document.querySelectorAll('.course button')].map((it) => it.textContent.split(' ')[1] ?? '').join('')")
        test.wanted(row == "✓" * len(names()), f"the row of exercises is {row}, behind which those with a goal are")
    browser.resize_back()
    browser.call("Emulation.setEmulatedMedia", features=[])


def pictured(test, picture):
    """Pictures of a sheet: asked, marked with one answer wrong, and shown; `picture` is told which."""
    name = "09_badges"
    test.browser.value(FORGET)
    open_exercise(test, name)
    picture("asked")
    focus_first(test)
    for number, answer in answers_of(name).items():
        give(test, number, wrong_for(answer) if number == 6 else answer)
    press_button(test, "mark my answers")
    test.until("document.querySelector('.card.wrong')", f"{name}: nothing is marked")
    picture("marked")
    test.browser.value("[...document.querySelectorAll('.marking button')].find((it) => it.textContent === 'show the answers').click()")
    test.until("document.querySelector('.answered')", f"{name}: no answers are shown")
    picture("shown")
    test.browser.value("sel4sim.page.leaveExercise()")


def marked_alike(test, _):
    """Each worked exercise and its key, marked by the native program and by the one in the page."""
    for name in names():
        count = len(answers_of(name))
        same_marks(test, name, text_of("exercises", name), (0, count, count))
        same_marks(test, name, text_of("exercise_answers", name), (count, count, 0))


def in_turn(test, _):
    """One at a time: each answer is marked once and explained, and the call behind the next one is not in sight."""
    browser, name = test.browser, "09_badges"
    test.forget()
    open_exercise(test, name)
    browser.value("document.querySelector('.marking input').click()")
    answers = answers_of(name)
    for number, answer in answers.items():
        test.until("document.querySelectorAll('.card.asks:not([hidden]) .prediction').length === 1", f"call {number}: not one call is asked")
        test.wanted(browser.value("[...document.querySelectorAll('.card:not([hidden])')].at(-1).value") == number, f"call {number} is not asked in turn")
        focus_first(test)
        give(test, number, wrong_for(answer) if number == 6 else answer)
        press_button(test, "check this answer")
        test.until(f"document.querySelectorAll('.card.asks .answered').length === {list(answers).index(number) + 1}", f"call {number} is not explained")
    test.wanted(browser.value(MARKING).startswith("8 of 9 right, 8 at the first try."), f"one at a time: {browser.value(MARKING)}")
    press_button(test, "next exercise")
    test.until(f"{SHEET}.querySelector('h1').textContent.startsWith('Who waits')", "there is no way to the next exercise")
    test.until("document.activeElement.matches('h1')", "the next exercise does not begin at its title")
    test.wanted(browser.value(f"{SHEET}.scrollTop") == 0, "the next exercise does not begin at its top")


def refused(test, _):
    """A set-up with a question that is refused is shown as any other one, with its fault."""
    text = text_of("exercises", "09_badges").replace("threads = 3", "threads = 300")
    test.browser.value(f"sel4sim.page.open({json.dumps(text)}, 'mine.toml')")
    test.settle()
    test.wanted(test.browser.value("sel4sim.page.exercise.isOpen") is False and "status 2" in test.text("status"), "a refused set-up is an exercise")
    test.wanted(test.text("notice") == "" and test.text("state") == "", f"of a refused set-up is said: {test.text('notice')}{test.text('state')}")


def kept_and_saved(test, _):
    """Answers and marks stay over a reload, to begin anew clears them; what is saved has the answers, and the program marks it."""
    browser, name = test.browser, "01_slots_and_words"
    test.forget()
    open_exercise(test, name)
    focus_first(test)
    answers = answers_of(name)
    for number, answer in answers.items():
        give(test, number, wrong_for(answer) if number == 2 else answer)
    reload(test)
    test.until(f"{MARKING} === 'All {len(answers)} answered.'", "a reload loses answers")
    test.browser.value("[...document.querySelectorAll('.marking button')][0].click()")
    test.until("document.querySelector('.card.wrong')", "nothing is marked")
    reload(test)
    test.until("document.querySelector('.card.wrong')", "a reload loses marks")
    folder = pathlib.Path(test.folder, "answers")
    folder.mkdir(exist_ok=True)
    browser.call("Browser.setDownloadBehavior", behavior="allow", browserContextId=browser.context, downloadPath=str(folder))
    browser.value("[...document.querySelectorAll('.marking button')].find((it) => it.textContent === 'save my answers').click()")
    path = folder / f"{name}.answers.toml"
    test.until_here(path.exists, "no answers are saved")
    text = path.read_text()
    status, report, _ = native(test.program, test.folder, ["check"], path.name, text.encode())
    test.wanted((status, report.decode().splitlines()[-1]) == (1, f"expected {len(answers) - 1} of {len(answers)}"), f"what is saved is marked as {report[-40:]}")
    test.wanted(text.endswith(f"# answers: {len(answers) - 1} of {len(answers)} right, {len(answers) - 1} at the first try (not 2), tries 1\n"),
                f"what is saved ends with {text[-120:]}")
    browser.value("[...document.querySelectorAll('.marking button')].find((it) => it.textContent === 'begin anew').click()")
    test.until(f"{MARKING}.startsWith('0 of {len(answers)} answered')", "what is begun anew has answers")


def shared_as_exercise(test, _):
    """A key is shared as its exercise, byte for byte, and not opened as one; a question that is typed stays in the editor."""
    browser = test.browser
    for name in names():
        browser.value(f"sel4sim.page.open({json.dumps(text_of('exercise_answers', name))}, '{name}.toml')")
        test.settle()
        test.wanted(browser.value("sel4sim.page.exercise.isOpen") is False, f"the key of {name} is opened as an exercise")
        browser.value("document.getElementById('address').value = ''")
        test.click("#share")
        test.until("document.getElementById('address').value !== ''", "no address is shared")
        test.click("#as-exercise")
        test.wanted(browser.value("sel4sim.page.sharing.text") == text_of("exercises", name), f"the key of {name} is shared as another exercise")
        address = browser.value("(async () => { await sel4sim.page.sharing.draw(); return document.getElementById('address').value; })()")
        test.click("#shared button:last-child")
    browser.value(FORGET)
    test.open(address)
    test.until(f"{SHEET}?.inert === false", "the address of an exercise leads to no sheet")
    test.wanted(browser.value("sel4sim.page.exercise.text") == text_of("exercises", names()[-1]), "the address of an exercise leads to another one")
    browser.value(f"{EDITOR}.text = {json.dumps(text_of('exercises', names()[0]))}")
    test.settle()
    reload(test)
    test.wanted(browser.value("sel4sim.page.exercise.isOpen") is False, "a question that was typed becomes an exercise by a reload")
    asked = "# in turn\n" + text_of("exercises", names()[0])
    browser.value(f"sel4sim.page.open({json.dumps(asked)}, 'mine.toml')")
    test.until("document.querySelectorAll('.card.asks:not([hidden])').length === 1", "calls that are to be asked in turn are asked at once")


def leaves_sheet(test, _):
    """The set-up itself has the report; a link leads back to the sheet, as it was."""
    browser = test.browser
    test.forget()
    open_exercise(test, "04_retype")
    focus_first(test)
    give(test, 1, "done")
    browser.value("[...document.querySelectorAll('.marking button')].find((it) => it.textContent === 'the set-up itself').click()")
    browser.value("[...document.querySelectorAll('dialog[open] button')].at(-1).click()")
    test.settle()
    test.wanted("expected 0 of 11" in test.text("panel-report"), "the set-up of an exercise is not run")
    test.click("#notice button")
    test.until(f"{SHEET}?.offsetParent !== null && {MARKING}.startsWith('1 of 11 answered')", "there is no way back to the sheet")


def printed(test, _):
    """A print has the task and each call with an empty field, and no answer."""
    browser = test.browser
    open_exercise(test, "02_a_space_of_its_own")
    browser.call("Emulation.setEmulatedMedia", media="print")
    colour = browser.value("getComputedStyle(document.querySelector('.prediction select')).color")
    test.wanted(colour in ("rgba(0, 0, 0, 0)", "transparent"), f"the fields of a print are {colour}")
    hidden = browser.value("[...document.querySelectorAll('.marking, .beside, .course, .asks .outcome, #work')].every((it) => it.offsetParent === null)")
    test.wanted(hidden, "a print has more than the sheet")
    browser.call("Emulation.setEmulatedMedia", media="")
    test.wanted(len(browser.call("Page.printToPDF")["data"]) > 10_000, "the print of an exercise is empty")
    test.wanted(browser.value("document.querySelector('.before')?.open ?? true"), "a print folds calls away")


# Of each field, brought to the edge of the window, whether it is what stands in its middle.
COVERED = """[...document.querySelectorAll('.prediction select')].filter((it) => ["start", "end"].some((block) => {
  it.focus();
  it.scrollIntoView({ block });
  const { left, top, width, height } = it.getBoundingClientRect();
  return document.elementFromPoint(left + width / 2, top + height / 2) !== it;
})).length"""


def low_window(test, _):
    """In a window as low as at a zoom of 400 % nothing stands over the questions, nor over the steps."""
    browser = test.browser
    test.forget()
    open_exercise(test, "09_badges")
    for width, height in ((320, 256), (320, 200), (640, 256), (1280, 300)):
        browser.resize(width, height)
        covered = browser.value(COVERED)
        test.wanted(covered == 0, f"at {width} x {height} {covered} fields are covered")
        still = browser.value(f"['fixed', 'sticky'].includes(getComputedStyle({FRAME}.querySelector('header')).position)")
        test.wanted(not still, f"at {width} x {height} the head of the steps stands still")
        wide = browser.value("document.documentElement.scrollWidth")
        test.wanted(wide <= width, f"a window of {width} is overrun: {wide}")
    browser.resize_back()


def printed_state(test, _):
    """A print has the state that the questions begin in, in the colours of paper; once answers are shown it has none."""
    browser = test.browser
    for theme in ("light", "dark"):
        browser.call("Emulation.setEmulatedMedia", features=[{"name": "prefers-color-scheme", "value": theme}])
        test.forget()
        open_exercise(test, "08_a_hidden_copy")
        test.until(f"{FRAME}.getElementById('position').textContent !== ''", "no state is beside the questions")
        before = browser.value(f"{FRAME}.getElementById('position').textContent")
        browser.value("window.dispatchEvent(new Event('beforeprint'))")
        browser.call("Emulation.setEmulatedMedia", media="print", features=[{"name": "prefers-color-scheme", "value": "light"}])
        drawn = browser.value("[...document.querySelectorAll('.printed svg')].map((it) => [it.getBoundingClientRect().height, it.textContent])")
        test.wanted(len(drawn) == 2 and all(height > 50 and "root" in text for height, text in drawn), f"a print has the state as {[it[0] for it in drawn]}")
        ground = browser.value("document.querySelector('.printed svg rect')?.getAttribute('fill') ?? null")
        test.wanted(ground == "rgb(255, 255, 255)", f"in a {theme} page the state is printed on {ground}")
        test.wanted(browser.value(f"{FRAME}.getElementById('position').textContent") == before, "a print moves the steps")
        browser.call("Emulation.setEmulatedMedia", media="", features=[])
    browser.value("sel4sim.page.exercise.keep({ stage: 'shown' }), window.dispatchEvent(new Event('beforeprint'))")
    test.wanted(browser.value("document.querySelector('.printed')?.hidden ?? true"), "what is printed with the answers has a state to begin in")


def in_firefox(test):
    """The same by keys, in a firefox with a window of any size."""
    test.browser.value(FORGET)
    for name in names():
        do_exercise(test, name)
        wide = test.browser.value("document.documentElement.scrollWidth - window.innerWidth")
        test.wanted(wide <= 0, f"{name}: in firefox the window is overrun by {wide}")


CHECKS = (marked_alike, each_exercise, in_turn, refused, kept_and_saved, shared_as_exercise, leaves_sheet, printed, low_window, printed_state)
