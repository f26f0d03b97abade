"""What a student who is stuck finds: the rules in the page, one name for each refusal wherever it is told, and three steps of help."""
import json
import re

from drawn import at_each_size
from gives_nothing_away import answer_all, at_rest
from sheets import MARKING, SHEET, answers_of, replies_of
from tester import TOP, pick

NAME = "03_guards_and_depths"
CARD = "sel4sim.page.exercise.sheet.cards.get({})"
NAMED = re.compile(r"^- \*\*(\d+(?:/\d)?)(?: `(\w+)`)?\*\*, ([^(]+?)\s+\(", re.M)


def rules_are_there(test, _):
    """Each operation's card leads to its rule, in the words of docs/behaviour.md: all of its sections, tables and rows."""
    browser, text = test.browser, (TOP / "docs" / "behaviour.md").read_text()
    test.forget()
    answer_all(test, NAME)
    operations = browser.value("[...new Set(sel4sim.page.exercise.told.calls.map(({ pairs }) => pairs.get('op')))]")
    for operation in operations:
        browser.value(f"[...document.querySelectorAll('.answering .link')].find((it) => it.getAttribute('aria-label') === 'the rule of {operation}').click()")
        heading = browser.value("document.activeElement.textContent")
        test.wanted(browser.value("document.getElementById('rules').open") and re.search(rf"(?m)^## {re.escape(heading)}", text),
                    f"the rule of {operation} is not shown: {heading!r}")
        browser.press("Escape")
    drawn = browser.value("[...document.querySelectorAll('.rules :is(h2, h3)')].map((it) => it.textContent)")
    wanted = [re.sub(r"[*`]", "", it) for it in re.findall(r"(?m)^#+ (.*)$", text)]
    test.wanted(drawn == wanted, f"the sections are {drawn}, and not {wanted}")
    rows = browser.value("document.querySelectorAll('.rules tr').length")
    test.wanted(rows == len(re.findall(r"(?m)^\|(?!---)", text)), f"the tables have {rows} rows")
    told = browser.value("document.querySelector('.rules').textContent")
    test.wanted(not re.search(r"\*\*|`|\]\(", told), "signs of Markdown stand in the rules")


def one_name(test, _):
    """On a card, in the steps, in the tab why and in docs/errors.md a refusal has one name, seL4's own, and one meaning."""
    browser = test.browser
    of_calls = (TOP / "docs" / "errors.md").read_text().split("\n## A call is refused\n")[1].split("\n## ")[0]
    wanted = {code: ": ".join(filter(None, (name, " ".join(words.split())))) for code, name, words in NAMED.findall(of_calls)}
    test.wanted(len(wanted) == 13, f"docs/errors.md has {len(wanted)} refusals")
    answer_all(test, NAME)
    browser.value(f"{CARD.format(min(answers_of(NAME)))}.answer = 'refused 2'")
    told = browser.value("Object.fromEntries([...document.querySelector('select[data-field=reason]').options].slice(1).map((it) => [it.value, it.textContent]))")
    test.wanted(set(told) == set(wanted), f"the refusals are {sorted(told)}, and in docs/errors.md {sorted(wanted)}")
    for code, words in wanted.items():
        test.wanted(told.get(code) == f"{code} · {words}", f"{code} is told as {told.get(code)!r}, and in docs/errors.md as {words}")
    pick(test, "examples", "guarded_address_space")
    test.click("#tab-why")
    test.settle()
    shown = browser.value("[...document.querySelectorAll('#panel-why .reasoned')].map((it) => it.textContent)")
    words = told["6/4"].removeprefix("6/4 · ")
    test.wanted(any(words in it for it in shown), f"why has no {words!r}")
    test.click("#tab-steps")
    test.settle()
    test.until("document.querySelector('#panel-steps iframe')?.contentDocument?.getElementById('range')?.max === '10'", "no steps")
    browser.value("sel4sim.page.steps.go(6)")
    inside = "document.querySelector('#panel-steps iframe').contentDocument.getElementById('said').textContent"
    test.until(f"{inside}.includes('refused 6/4')", "the steps do not come to call 6")
    test.wanted(words in browser.value(inside), f"the steps say {browser.value(inside)!r}")


def help_of(test, number):
    """What a card offers, and what it tells."""
    return test.browser.value(f"(() => {{ const {{ outcome }} = {CARD.format(number)}; return [[...outcome.querySelectorAll('.link')].map((it) => it.textContent),"
                              " outcome.querySelector('.reason')?.innerText ?? null, outcome.querySelector('.answered')?.innerText ?? null]; })()")


def press_help(test, number):
    test.browser.value(f"{CARD.format(number)}.outcome.querySelector('.link').click()")
    at_rest(test)


def three_steps(test, _):
    """With a wrong answer a student gets the rule, then how far the call gets, and then its answer alone, each counted; the others stay asked, and what is
    handed in tells it. Help stays over a reload."""
    browser, answers = test.browser, answers_of(NAME)
    test.forget()
    failing = [number for number, answer in answers.items() if answer == "refused 6/4"][:1]
    number, other = failing[0], next(it for it in answers if it not in failing)
    answer_all(test, NAME, wrong=(number, other))
    test.press_with_mouse("mark my answers")
    test.until("document.querySelector('.card.wrong')", "nothing is marked")
    at_rest(test)
    test.wanted(help_of(test, number) == [["help: the rule"], None, None], f"at first there is {help_of(test, number)}")
    press_help(test, number)
    test.wanted(browser.value("document.getElementById('rules').open"), "the first help is not the rule")
    browser.press("Escape")
    press_help(test, number)
    offered, far, answered = help_of(test, number)
    test.wanted(offered == ["show the answer of this call"] and answered is None and "is looked up from" in (far or "") and "its guard is" not in far,
                f"the second help is {offered}, {far!r}, {answered!r}")
    is_still_asked_beside(test, ())
    press_help(test, number)
    _, _, answered = help_of(test, number)
    test.wanted("refused 6/4" in (answered or ""), f"the third help tells {answered!r}")
    is_still_asked_beside(test, (number,))
    test.wanted(browser.value(MARKING).endswith(f"1 shown. Change what is marked ✗: {other}. Bits: 8 of 8 read right."), f"it is told {browser.value(MARKING)!r}")
    story = browser.value("sel4sim.page.exercise.story")
    test.wanted(f"hints 3, shown one by one {number}" in story, f"what is handed in tells {story!r}")
    browser.reload()
    test.until(f"{SHEET}?.inert === false && document.querySelector('.answered')", "a reload loses help")
    at_rest(test)
    test.wanted(browser.value("sel4sim.page.exercise.story") == story, "a reload loses what was counted")
    browser.value(f"{CARD.format(other)}.answer = {json.dumps(answers[other])}")
    test.press_with_mouse("mark again")
    test.until("sel4sim.page.exercise.state.stage === 'shown'", "with one answer shown and all others right it does not end")
    at_rest(test)
    test.wanted(browser.value(MARKING).startswith(f"{len(answers) - 1} of {len(answers)} right"), f"at the end {browser.value(MARKING)!r}")
    test.wanted("then shown" not in browser.value("sel4sim.page.exercise.story"), "what was shown one by one is told as shown")


def is_still_asked_beside(test, shown):
    """Of the calls but those that were shown no reply is told."""
    told = test.browser.value(f"{SHEET}.textContent")
    answered = test.browser.value("[...document.querySelectorAll('.answered')].map((it) => it.closest('.card').value)")
    test.wanted(answered == list(shown), f"answers of {answered} are shown, and not of {shown}")
    for other, (_, reply) in replies_of(NAME).items():
        test.wanted(other in shown or f"answered: {reply}" not in told or reply in [replies_of(NAME)[it][1] for it in shown], f"call {other} is told: {reply}")


def by_keys(test, _):
    """The steps of help by keys alone: the focus is on a wrong answer, Tab leads to its help, and behind the rules it is on the next step."""
    browser = test.browser
    number = next(number for number, answer in answers_of(NAME).items() if answer == "refused 6/4")
    test.forget()
    answer_all(test, NAME, wrong=(number,))
    browser.value("document.querySelector('.marking .main').focus()")
    browser.press(" ")
    test.until("document.querySelector('.card.wrong')", "nothing is marked by keys")
    at_rest(test)
    for words in ("help: the rule", "more help: how far it gets", "show the answer of this call"):
        for _ in range(6):
            if browser.value("document.activeElement.textContent") == words:
                break
            browser.press("Tab")
        test.wanted(browser.value("document.activeElement.textContent") == words, f"no Tab leads to {words!r}, but to {browser.value('document.activeElement.textContent')!r}")
        browser.press(" ")
        at_rest(test)
        if browser.value("document.getElementById('rules').open"):
            browser.press("Escape")
    test.wanted("refused 6/4" in (help_of(test, number)[2] or ""), f"by keys the help tells {help_of(test, number)}")


def at_sizes(test, _):
    """Marks, help and rules overrun no window, and can be read, at any size and in both themes."""
    number = next(number for number, answer in answers_of(NAME).items() if answer == "refused 6/4")
    test.forget()
    answer_all(test, NAME, wrong=(number,))
    test.press_with_mouse("mark my answers")
    test.until("document.querySelector('.card.wrong')", "nothing is marked")
    at_rest(test)
    press_help(test, number)
    at_each_size(test, "the rules", "document.querySelector('.beside iframe')")
    test.browser.press("Escape")
    press_help(test, number)
    at_each_size(test, "help", "document.querySelector('.beside iframe')")


CHECKS = (at_sizes, by_keys, rules_are_there, one_name, three_steps)
