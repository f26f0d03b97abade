#!/usr/bin/env python3
"""names.py audits|reports PROGRAM FOLDER..: texts with `--names` are the texts without it, with names in place of numbers.

Of `audits` each set-up NAME.toml in the FOLDERs is asked for `tree`, `tree --dot`, `ever`, and `never` of its first two
threads, either way, with the options of NAME.args where that is there. Of `reports` each set-up below the FOLDERs is asked for `check`,
`trace`, `why`, `explore`, `audit --slot` of its first slot with children, and `threads` where it has one client, so that its history is
the same each time. What has which name is worked out here: by the table of names of the set-up, and by what its derivation forest has
in its slots, at boot and later."""
import functools
import pathlib
import re
import sys
import tomllib

from program import run, side_by_side

CNODE = re.compile(r"cnode (\d+) radix (\d+)")
ROW = re.compile(r"(\d+) ((\w+).*?)(?: @[\w-]+)?$")
CAP = re.compile(r"\b(untyped (\d+) bits (\d+)|(endpoint|cnode|tcb) (\d+)(?= badge| radix|$| under| original| children))")
THREAD = r"(\d+)(?: @[\w-]+)?"
# How each field of a line is spelt that is not a number. Names has a method of its name, or the field stays.
FIELDS = {
    "thread": THREAD, "threads": r"((?: \d+)+)", "slots": r"((?: \d+)+)", "place": r"(\d+)(?=$|:| to slot)", "part": r"(\w+)", "row": r"(\d+ .*)",
    "held": "(.*)", "caps": "(.*)", "reply": "(.*)", "doing": "(.*)", "waiting": "(.*)", "state": "(.*)",
    "end": r"(sending \d+|receiving \d+|inactive|gone|ready)", "rest": "(.*)", "none": "((?: none)?)", "word": r"(\w+)",
    "call": r"(\d+(?: client \d+ number \d+:)?)", "client": r"(\d+ client \d+:)", "answer": r"(\d+\.\d+)",
}
# The lines of `ever` and `never`.
PARTS = (
    "without {thread}{none}", "messages {thread}{none}", "by {endpoint}{none}", "part {part}", "  thread {thread} {word}",
    "  use {endpoint} badge {rest}", "way {part} -> {endpoint} badge {word} -> {part}", "grant {part} -> {endpoint} -> {part}",
    "reply {part} -> {endpoint} -> {part}", "take {part} -> {part}", "waiting {thread} -> {endpoint} badge {rest}",
    "never {thread} part {part} -> {thread} part {part} {rest}", "open {endpoint}", "  part {part} memory {rest}",
    "  part {part} use {endpoint} badge {rest}", "  part {part} waiting {thread} -> {endpoint} badge {rest}",
    "  part {part} waiting {endpoint} -> {thread}", "chain {thread} -> {target}", "  slot {row}",
)
# Those of a state, and with these those of a report, a trace and `why`.
STATE = (
    "thread {thread} {doing}", "inbox {thread} {rest}", "endpoint {endpoint} {waiting}", "slot {slot} {held}", "selfheld {cnode}",
    "sibling {slot} after {slot}",
)
REPORT = (
    "{call} {thread} {word}: {reply}", "audit {rest} slot {slot}", "revoke {slot} {caps} clears {word}", "{client} {thread} {rest}",
    "  {answer} {reply}", "  {word} {thread} {end}", "  + {state}", "  - {state}", "  with {rest}", *STATE,
)
# What stands within a line of a reason, within a reply, and in what a thread does.
REASON = (
    "  its slot {word} stands at {slot} and is full: {caps}", "slots{slots} to slot", "slot {place}", "  thread {thread}",
    "  no live thread is at {thread}", "  live threads:{threads}", " on endpoint {endpoint}",
)
REPLY = ("delivered {endpoint} from {thread} to {thread} ",)
DOING = ("sending {endpoint}", "receiving {endpoint}")


@functools.cache
def form(text):
    """What matches a form, and its pieces: literal text and names of fields in turn."""
    pieces = re.split(r"\{(\w+)\}", text)
    spelt = (FIELDS.get(it, r"(\d+)") if at % 2 else re.escape(it) for at, it in enumerate(pieces))
    return re.compile("".join(spelt)), pieces


def rows(tree):
    """The full slots of a derivation forest, in its order: the address and what it holds."""
    return [(int(told[1]), told[2]) for told in map(ROW.match, (line.strip() for line in tree.splitlines()[1:])) if told]


def object_of(cap):
    """What a capability names: its kind and its address, of a region also the bits of its size."""
    words = cap.split()
    return (words[0], int(words[1]), int(words[3])) if words[0] == "untyped" else (words[0], int(words[1]))


class Names:
    """What objects and slots of a set-up are called, and what stands for each field of a line."""

    def __init__(self, program, setup, after=()):
        self.table = tomllib.loads(setup.read_text())
        self.values = list(self.table.get("names", {}).items())
        self.slot_bits = 4 if self.table.get("profile") == "narrow" else 5
        self.boot, now = (rows(run(program, "tree", *words, setup)[1]) for words in (["--after", "0"], after))
        self.nodes = [tuple(map(int, told.groups())) for told in (CNODE.match(cap) for _, cap in now) if told]
        self.labels, self.target = {}, self.endpoint

    def one(self, value):
        found = [name for name, known in self.values if (int(known, 16) if isinstance(known, str) else known) == value]
        return found[0] if len(found) == 1 else None

    def name(self, *what):
        """The name of an object, or nothing."""
        own = self.one(what[1]) if what[1] >= 1 << self.table["root_radix"] else None
        at_boot = next((slot for slot, cap in self.boot if object_of(cap) == what), None)
        return own or (None if at_boot is None else self.one(at_boot >> self.slot_bits))

    def object(self, *what):
        name = self.name(*what)
        return f"@{name}" if name else str(what[1])

    def thread(self, address):
        return self.object("tcb", int(address))

    def endpoint(self, address):
        return self.object("endpoint", int(address))

    def cnode(self, address):
        return self.object("cnode", int(address))

    def slot(self, number):
        address = int(number)
        for base, radix in self.nodes:
            index = (address - base) >> self.slot_bits
            if 0 <= index < 1 << radix:
                name = self.name("cnode", base)
                return f"@{name}[{index}]" if name else number
        name = self.name("tcb", address)
        return f"@{name}.cspace" if name else number

    place = slot

    def slots(self, numbers):
        return "".join(f" {self.slot(it)}" for it in numbers.split())

    def threads(self, numbers):
        return "".join(f" {self.thread(it)}" for it in numbers.split())

    def waiting(self, text):
        """Who waits on an endpoint."""
        state, _, numbers = text.partition(" ")
        return state + self.threads(numbers)

    def part(self, number):
        return self.labels.get(number, number)

    def row(self, line):
        told = ROW.match(line)
        words = told[2].split()
        return " ".join([self.slot(told[1]), words[0], self.object(*object_of(told[2])), *words[2:]])

    def caps(self, text):
        """A text with capabilities in it."""
        def one(found):
            if found[2]:
                return f"untyped {self.object('untyped', int(found[2]), int(found[3]))} bits {found[3]}"
            return f"{found[4]} {self.object(found[4], int(found[5]))}"
        return CAP.sub(one, text)

    def held(self, text):
        """What a slot holds, and what it is derived from."""
        return self.caps(re.sub(r" under (\d+)", lambda told: f" under {self.slot(told[1])}", text))

    def reply(self, text):
        """A reply, and what is said of its expectation, which stays."""
        told, mark, rest = text.partition(" [")
        return self.within(told, REPLY) + mark + rest

    def doing(self, text):
        return self.within(text, DOING)

    end = doing

    def state(self, text):
        return self.line(text, STATE) or text

    def filled(self, found, pieces):
        """What has a form, by names."""
        fields = iter(found.groups())
        return "".join(getattr(self, it, str)(next(fields)) if at % 2 else it for at, it in enumerate(pieces))

    def line(self, line, forms):
        """A line of one of these forms, by names, or nothing."""
        matched = ((pattern.fullmatch(line), pieces) for pattern, pieces in map(form, forms))
        return next((self.filled(found, pieces) for found, pieces in matched if found), None)

    def within(self, text, forms):
        """A text with what has one of these forms by names."""
        for pattern, pieces in map(form, forms):
            text = pattern.sub(lambda found: self.filled(found, pieces), text)
        return text

    def reason(self, line):
        """A line of a reason: with the capability that is found in a slot behind it."""
        head, colon, held = line.partition(": ")
        return self.within(head + colon + self.caps(held) if re.search(r"slot \d+$", head) else line, REASON)

    def report(self, text):
        """The lines of a report, of a trace or of `why`."""
        return [self.line(line, REPORT) or (self.reason(line) if line.startswith("  ") else line) for line in text.splitlines()]

    def parts(self, text):
        """The lines of `ever` or `never`. A chain within one part leads to a control block, and else to an endpoint."""
        told = re.search(r"^never \d+.* part (\w+) -> .* part (\w+) [\w ]+$", text, re.M)
        self.target = self.thread if told and told[1] == told[2] else self.endpoint
        return [self.line(line, PARTS) or line for line in text.splitlines()]

    def tree(self, text):
        first, *lines = text.splitlines()
        return [first, *(line[:len(line) - len(line.lstrip())] + self.row(line.lstrip()) for line in lines)]

    def graph(self, text):
        return [re.sub(r'^(  \d+ \[label=")(\d.*)("\];)$', lambda told: told[1] + self.row(told[2]) + told[3], line) for line in text.splitlines()]

    def label_parts(self, ever):
        """Notes the threads of each part, by its number."""
        part, threads = None, {}
        for line in ever.splitlines():
            if told := re.fullmatch(r"part (\d+)", line):
                part = told[1]
            elif told := re.match(rf"  thread {THREAD} ", line):
                threads.setdefault(part, []).append(self.thread(told[1]))
        self.labels = {part: "+".join(them) for part, them in threads.items()}


def differs(program, words, setup, make):
    """What is wrong with a text by names, or whether it is another one than without; nothing where there is none."""
    status, plain = run(program, *words, setup)
    if not plain or plain.startswith("set-up refused"):
        return None
    wanted = make(plain)
    again, told = run(program, *words, "--names", setup)
    if again != status or told.splitlines() != wanted:
        return f"{setup} {' '.join(words)} --names: status {again}, wanted {status}\n    wanted\n" + "\n".join(wanted) + f"\n    got\n{told}"
    return told != plain


def audits(program, setup):
    """The words of each command that is asked of a layout, with what makes its lines by names."""
    args = setup.with_suffix(".args")
    trust = args.read_text().split() if args.exists() else []
    after = trust[trust.index("--after"):][:2] if "--after" in trust else []
    names, ever = Names(program, setup, after), run(program, "ever", *trust, setup)[1]
    names.label_parts(ever)
    yield ["tree", *after], names.tree
    yield ["tree", "--dot", *after], names.graph
    yield ["ever", *trust], names.parts
    threads = re.findall(rf"^  thread {THREAD} ", ever, re.M)[:2]
    for pair in (threads, threads[::-1]) if len(threads) == 2 else ():
        yield ["never", ",".join(pair), *trust], names.parts


def reports(program, setup):
    """The same of reports."""
    names = Names(program, setup)
    parents = re.findall(r"^slot (\d+) .* children$", run(program, "check", setup)[1], re.M)
    for words in ("check", "trace", "why", "explore --states 2000", *["threads"] * (names.table.get("clients", 1) == 1),
                  *(f"audit --slot {slot}" for slot in parents[:1])):
        yield words.split(), names.report


def is_setup(path):
    """Whether a file is a set-up as its table says, whatever else is wrong with it."""
    try:
        return "root_radix" in tomllib.loads(path.read_text())
    except (tomllib.TOMLDecodeError, UnicodeDecodeError):
        return False


def main(kind, program, *folders):
    asked, pattern = {"audits": (audits, "*.toml"), "reports": (reports, "**/*.toml")}[kind]
    setups = [it for folder in folders for it in sorted(pathlib.Path(folder).glob(pattern)) if is_setup(it)]
    found = side_by_side(lambda setup: [differs(program, words, setup, make) for words, make in asked(program, setup)], setups)
    faults, told = ([it for of_one in found for it in of_one if isinstance(it, kind)] for kind in (str, bool))
    print("\n".join(faults[:10]))
    print(f"{len(told)} texts as wanted, {told.count(True)} of them with names, {len(faults)} not")
    return 0 if told.count(True) and not faults else 1


if __name__ == "__main__":
    sys.exit(main(*sys.argv[1:]))
