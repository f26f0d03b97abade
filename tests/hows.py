#!/usr/bin/env python3
"""hows.py PROGRAM FOLDER PARTS POLICIES: what `how` finds on the set-ups of FOLDER, and that it finds nothing that is excluded.

NAME.toml is a set-up, NAME.args has the words behind `how`, one a line, and NAME.status the wanted status. Where that is 1, NAME.how
is the wanted line, byte for byte. Where it is 0, NAME.how is a witness, and another one is as good: the program's own has to be met
by `check` in all that it expects, with as many calls found, each of which expects the whole of its answer, and its last call has to be
answered as that of NAME.how.

In PARTS each NAME.PAIR.never is asked with `how` in place of `never`: where that says `excluded`, so has this; and
`check` has to meet each witness. Where it says that it is possible, a comment of NAME.toml says what `how` finds.

In POLICIES each breach of each policy is asked with `--how N`. Of what is held nothing is written, and standard error has its line.
Of the others `check` meets each witness, and the last call is the delivery that the breach names, by its endpoint and with its badge;
of a take the last calls are one of a thread of the part that takes, between two equal ones of a thread of the other, which are answered
otherwise; or the line says that it is excluded, by parts or by flow, or that nothing is found. That is never said of a way between two
parts that only pass messages. That it is asked of no two threads is said only where it is wanted: where NAME.N.how is
there, the answer is as wanted, as above, and NAME.N.status and NAME.N.err have the wanted status and standard error. NAME.N.flows.how
is of the set-up with the mark of `import --flows`.

Of a set-up that says that `import --flows` made it nothing is written, and the status is 4; so of each breach of a policy of it, with
the breach on standard error.

In the end the first witness is compared with the second, and has to differ.
"""
import pathlib
import re
import sys
import tomllib

from program import answer, run


# what a call is answered that meets what it expects
MET = re.compile(r"^\d+ \d+ \w+: (.*) \[met\]$", re.M)


def found(text):
    """What the calls that a witness has found are answered."""
    return [call["expect"] for call in tomllib.loads(text).get("call", []) if "expect" in call]


def faults(program, words, wanted, given=""):
    """What is wrong with the answer to these words, with a text on standard input, where that of `wanted` is the wanted one."""
    status, text, error = answer(program, *words, text=given)
    want_status = int(wanted.with_suffix(".status").read_text())
    want, errors = wanted.with_suffix(".how").read_text(), wanted.with_suffix(".err")
    if status != want_status:
        yield f"status {status}, wanted {want_status}"
    elif status != 0 and text != want:
        yield f"wanted {want}got {text}"
    elif status == 0:
        met, report = run(program, "check", "-", text=text)
        if met != 0:
            yield f"check does not meet the witness:\n{report}"
        if found(text) != MET.findall(report):
            yield f"the witness expects {found(text)}, and the answers are {MET.findall(report)}"
        if len(found(text)) != len(found(want)) or found(text)[-1] != found(want)[-1]:
            yield f"wanted {found(want)}, got {found(text)}"
    if errors.exists() and error != errors.read_text():
        yield f"standard error: wanted {errors.read_text()}got {error}"


def asked(setup):
    """The words that ask of a set-up."""
    return ["how", *setup.with_suffix(".args").read_text().split(), str(setup)]


def answer_of(never):
    """The answer to a question that `how` can be asked: that takes no `--messages`; else nothing."""
    answers = [line for line in never.read_text().splitlines() if line.startswith("never ") and " -> " in line]
    words = never.with_suffix(".args").read_text().split()
    return re.search(r" part \w+ ([a-z ]+)$", answers[0])[1] if len(answers) == 1 and "--messages" not in words else ""


def question(words):
    """The two threads of a question, with the endpoints of `--by`."""
    pair, *options = words
    given = dict(zip(options[::2], options[1::2]))
    return pair + (f" --by {given['--by']}" if "--by" in given else "")


def asked_faults(program, never):
    """What is wrong where `how` is asked in place of `never`."""
    words = never.with_suffix(".args").read_text().split()
    setup = never.with_name(never.name.split(".")[0] + ".toml")
    status, text = run(program, "how", *words, setup)
    first = text.split("\n")[0]
    if status == 0:
        met, report = run(program, "check", "-", text=text)
        if met != 0:
            yield f"check does not meet the witness:\n{report}"
    answer, one_thread = answer_of(never), len(set(question(words).split()[0].split(","))) == 1
    if one_thread and answer and status != 4:
        yield f"status {status} of a thread and itself"
    if not one_thread and answer.startswith("excluded") and (status != 1 or not first.endswith(f" {answer}")):
        yield f"status {status}, {first}"
    if answer == "possible decided" and status != 0:
        yield f"status {status}, {first}"
    told = re.search(r" -> .* part \w+ (.+)$", first)
    said = f"# {question(words)}: {'a witness' if status == 0 else told[1] if told else 'no question'}"
    if answer.startswith("possible") and said not in setup.read_text().splitlines():
        yield f"the set-up does not say {said!r}"
    if status not in (0, 1, 4):
        yield f"status {status}"


# breaches of what passes, of parts and of what is taken; the others are of what is held
PASSING = re.compile(r"breach (?:way (?P<g>\S+) -> (?P<e>\S+) badge (?P<b>\S+) -> (?P<h>\S+)|badge \S+ (?P<e2>\S+) badge (?P<b2>\S+) .*"
                     r"|waiting (?P<t>\S+) -> (?P<e3>\S+) badge (?P<b3>\d+)|waiting (?P<e4>\S+) -> (?P<u>\S+)|joined .*"
                     r"|take (?P<by>\S+) -> (?P<of>\S+))")
DELIVERED = re.compile(r"delivered (\d+) from \d+ to \d+ badge (\d+) ")


def address_of(program, setup, word):
    """The address of an endpoint that a line names: by itself, by a name for it, or by a name for the slot of the root CNode."""
    if not word.startswith("@"):
        return int(word)
    read = tomllib.loads(setup.read_text())
    number = int(read["names"][word[1:]])
    if number >= 2 ** read["root_radix"]:
        return number
    _, report = run(program, "check", setup)
    slot = re.search(rf"^slot {32 * number} endpoint (\d+) ", report, re.M)
    return int(slot[1])


def still_groups(program, policy, setup):
    """The groups of one thread whose parts only pass messages."""
    words = tomllib.loads(policy.read_text())
    names = tomllib.loads(setup.read_text())["names"]
    trusted = [str(it) for it in [*words.get("silent", []), *words.get("messages", [])]]
    after = ["--after", str(words["after"])] if "after" in words else []
    _, text = run(program, "ever", "--without", ",".join(trusted), *after, setup)
    alone = {str(names[it]): it for it in words.get("alone", []) if it in names}
    still, members = set(), []
    for line in text.splitlines():
        if line.startswith("part "):
            members = []
        elif line.startswith("thread "):
            members.append(line.split()[1])
        elif line.strip() == "only messages":
            still |= {alone[it] for it in members if it in alone}
    return still


def delivery_faults(program, setup, line, text):
    """What is wrong with a witness of a breach."""
    met, report = run(program, "check", "-", text=text)
    if met != 0:
        yield f"check does not meet the witness:\n{report}"
    asked = PASSING.fullmatch(line).groupdict()
    endpoint = next((asked[it] for it in ("e", "e2", "e3", "e4") if asked[it]), None)
    badge = next((asked[it] for it in ("b", "b2", "b3") if asked[it]), "any")
    if endpoint is None:
        return
    last = DELIVERED.match(found(text)[-1])
    if not last or int(last[1]) != address_of(program, setup, endpoint):
        yield f"{line}: the last call is answered {found(text)[-1]}"
    elif badge != "any" and badge != last[2]:
        yield f"{line}: the last call is answered {found(text)[-1]}"


def members(policy, label):
    """The threads of the groups that a line names by a label, as a policy writes them behind a `@`."""
    words = tomllib.loads(policy.read_text())
    groups = {name: [name] for name in words.get("alone", [])} | {it["name"]: it["threads"] for it in words.get("group", [])}
    return {"@" + thread.removeprefix("@") for name in label.split("+") for thread in groups[name]}


def loss_faults(policy, line, text):
    """What is wrong with the last calls of a witness of a take."""
    take, calls = PASSING.fullmatch(line).groupdict(), tomllib.loads(text)["call"][-3:]
    (first, answered), (taking, _), (last, again) = ((call, call.pop("expect")) for call in calls)
    is_taken = taking["thread"] in members(policy, take["by"]) and last["thread"] in members(policy, take["of"])
    if not is_taken or first != last or answered == again:
        yield f"{line}: the last calls are {calls}, answered {answered} and {again}"


WITHOUT = re.compile(r"how \d+ (excluded|excluded by flow|not found|not found of \d+)\n")
HELD = "this is there already, and no calls to come are asked for"
OF_FLOWS = "the set-up is one of import --flows, where no calls are looked for"


def absent(policy, number, line, why):
    """What standard error says if no calls are looked for."""
    has_line = tomllib.loads(policy.read_text())["policy"] == 2 and line.split()[1] not in ("call", "joined")
    place = "the line below it has its slot" if has_line else "sel4sim never has the chain of slots"
    return f"sel4sim: command line refused\nsel4sim: --how {number}: {line}: {why}; {place}\n"


def is_wanted(setup, number, text):
    """Whether a text stands beside a set-up as the answer for the breach with a number."""
    wanted = setup.with_suffix(f".{number}.how")
    return wanted.exists() and wanted.read_text() == text


def breach_faults(program, policy, setup, number, line, still):
    """What is wrong with the answer for the breach with a number."""
    status, text, error = answer(program, "policy", policy, "--how", str(number), setup)
    passing = PASSING.fullmatch(line)
    if not passing:
        if (status, text, error) != (4, "", absent(policy, number, line, HELD)):
            yield f"{line}: status {status}, {text}{error}"
        return
    if status == 0 and passing["by"]:
        yield from loss_faults(policy, line, text)
    if status == 0:
        yield from delivery_faults(program, setup, line, text)
    elif status != 1 or not (WITHOUT.fullmatch(text) or is_wanted(setup, number, text)):
        yield f"{line}: status {status}, {text[:200]}"
    is_still = passing["g"] in still and passing["h"] in still
    if status != 0 and is_still:
        yield f"{line}: {text}"


def marked(setup):
    """The text of a set-up with the mark of `import --flows`."""
    with_mark = re.sub(r"^names = \{", "names = { import_flows = 1048576,", setup.read_text(), count=1, flags=re.M)
    return re.sub(r"^\[names\]\n", "[names]\nimport_flows = 1048576\n", with_mark, count=1, flags=re.M)


def policy_faults(program, policy, counted):
    """What is wrong with the answers for each breach of a policy, and for the one behind the last."""
    setup = policy.with_name(policy.name.replace(".policy.toml", ".toml"))
    _, text = run(program, "policy", policy, setup)
    lines = [line for line in text.splitlines() if line.startswith("breach ")]
    still = still_groups(program, policy, setup)
    for number, line in enumerate(lines, 1):
        counted.append(line)
        yield from breach_faults(program, policy, setup, number, line, still)
        of_flows = answer(program, "policy", policy, "--how", str(number), "-", text=marked(setup))
        if of_flows != (4, "", absent(policy, number, line, OF_FLOWS if PASSING.fullmatch(line) else HELD)):
            yield f"{line}, with the mark of import --flows: {of_flows}"
    status, text, error = answer(program, "policy", policy, "--how", str(len(lines) + 1), setup)
    if status != 4 or text or f"count of breaches: {len(lines)}\n" not in error:
        yield f"behind the last breach: status {status}, {error}"


def wanted_faults(program, wanted):
    """What is wrong with the answer for a breach whose answer is there; NAME.N.flows.how is of a set-up with the mark of `import --flows`."""
    name, number, *flows = wanted.stem.split(".")
    setup, words = wanted.with_name(f"{name}.toml"), ["policy", str(wanted.with_name(f"{name}.policy.toml")), "--how", number]
    yield from faults(program, [*words, "-"], wanted, marked(setup)) if flows else faults(program, [*words, str(setup)], wanted)


FLOWS = "sel4sim: command line refused\nsel4sim: made by import --flows: no calls are looked for; sel4sim never has the chain\n"


def flows_faults(program, setup):
    """What is wrong with the answer for a set-up that says that `import --flows` made it."""
    of_flows = answer(program, *asked(setup)[:-1], "-", text=marked(setup))
    if of_flows != (4, "", FLOWS):
        yield f"with the mark of import --flows: {of_flows}"


def main():
    program, folder, parts, policies_folder = sys.argv[1], *(pathlib.Path(word) for word in sys.argv[2:5])
    policies, breaches = sorted(policies_folder.glob("*.policy.toml")), []
    setups, wanted = sorted(folder.glob("*.toml")), sorted(policies_folder.glob("*.how"))
    nevers = [never for never in sorted(parts.glob("*.never")) if answer_of(never)]
    wrong = [(it, fault) for it in setups for fault in faults(program, asked(it), it)]
    wrong += [(it, fault) for it in nevers for fault in asked_faults(program, it)]
    wrong += [(it, fault) for it in policies for fault in policy_faults(program, it, breaches)]
    wrong += [(it, fault) for it in wanted for fault in wanted_faults(program, it)]
    wrong += [(it, fault) for it in setups[:1] for fault in flows_faults(program, it)]
    for it, fault in wrong:
        print(f"{it}: {fault}")
    print(f"{len(setups)} set-ups asked how, {len(nevers)} questions of never asked, {len(breaches)} breaches, {len(wanted)} of them wanted, "
          f"{len(wrong)} faults")
    differs = any(faults(program, asked(setups[0]), setups[1]))
    if not differs:
        print(f"{setups[0]}: no fault where {setups[1]} is wanted")
    return 0 if setups and nevers and breaches and wanted and not wrong and differs else 1


sys.exit(main())
