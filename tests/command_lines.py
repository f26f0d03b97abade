#!/usr/bin/env python3
"""command_lines.py PROGRAM: whole command lines, by their exit status and by what is written.

Those of LINES are given a stored set-up of two calls, whose one expectation is met, on standard input; their folder has two files,
text.toml and run_me, which are no set-ups. The folder of those of ASKED has the files of COUNTS, set-ups with so many calls of two clients
each, so what is written shows which of them was read. A line that names none of them reads such a set-up from standard input, which is
else empty.

Of what is written a part is wanted, the whole if it stands in a list, or of a table the names in its first column. If the line is refused, or
the input cannot be read, nothing is written, and standard error says what is wanted: REFUSED, UNREAD, or why a line of ASKED is refused, which
is UNTAKEN of words that it does not take."""
import csv
import io
import pathlib
import shlex
import sys
import tempfile

from program import answer, tried

REFUSED, UNREAD, UNTAKEN = "sel4sim: command line refused\n", "reading failed", "\nerror: "
STORED = """format = 1
memory_bits = 16
root_radix = 4
threads = 2
endpoints = 1
[[call]]
thread = 2048
op = "send"
cap = 4
[[call]]
thread = 4096
op = "recv"
cap = 4
expect = "delivered 6144 from 2048"
"""
COUNTS = {"-": 8, "rows.toml": 9, "chek": 10, "check": 11, "--help": 12, "a": 13, "b": 14, "c": 15, "-b": 16, "e": 17}
HEAD = """format = 2
memory_bits = 16
root_radix = 4
threads = 2
endpoints = 1
clients = 2
names = { loader = 2048, a = 4096 }
untyped = [{ base = 16384, bits = 12 }]
"""
FIRST_FORMAT = HEAD.replace("format = 2", "format = 1").replace("names = { loader = 2048, a = 4096 }\n", "")
CALLS = ('{ client = 0, thread = 2048, op = "nbsend", cap = 4, expect = "dropped" }',
         '{ client = 1, thread = 4096, op = "nbrecv", cap = 4, expect = "empty" }')


def setup(count, head=HEAD):
    """A set-up of so many calls, in which nobody ever waits."""
    return head + "call = [\n" + "".join(f"    {CALLS[it % 2]},\n" for it in range(count)) + "]\n"


def report(count):
    """How the report of a set-up ends; in a trace another line is in front of the last one."""
    return f"slot 4096 cnode 0 radix 4 guard 0 size 60\nexpected {count} of {count}\n"


def summary(*names):
    """What is written of several files that are checked."""
    rows = "".join(f"{name}: expected {COUNTS[name]} of {COUNTS[name]}\n" for name in names)
    return f"{rows}files {len(names)} met {len(names)} unmet 0 refused 0 unread 0\n"


# The words, the status, and what is wanted.
LINES = [
    # subcommands, also with files that are no set-ups or are not there
    ("", 0, "1 2048 send: waiting\n"),
    ("trace", 0, "  + endpoint 6144 sending 2048\n"),
    ("threads", 0, "entries 2 of 2\n"),
    ("threads --first 2", 0, "2 client 0 number 1: 4096 recv: delivered"),
    ("migrate", 0, "format = 2\n"),
    ("import", 2, "layout refused at 1\n"),
    ("check text.toml", 2, "set-up refused 200 at text\n"),
    ("trace text.toml", 2, "set-up refused 200 at text\n"),
    ("check none.toml", 3, UNREAD),
    ("text.toml", 2, "set-up refused 200 at text\n"),
    ("trace -", 0, "  + endpoint 6144 sending 2048\n"),
    ("chek", 4, REFUSED),
    ("none.toml", 4, REFUSED),
    ("chek text.toml", 4, REFUSED),
    ("trace chek", 3, UNREAD),
    ("run_me", 2, "set-up refused 200 at text\n"),
    ("run_me text.toml", 2, "files 2 met 0 unmet 0 refused 2 unread 0\n"),
    ("-x", 4, REFUSED),
    ("--help", 0, "Usage: sel4sim"),
    ("--version", 0, "sel4sim 20"),
    ("-V", 0, "sel4sim 20"),
    ("check --version", 4, REFUSED),
    ("explore text.toml", 2, "set-up refused 200 at text\n"),
    ("ever text.toml", 2, "set-up refused 200 at text\n"),
    # reasons and audits
    ("why", 0, "refused 0 of 2\nexpected 1 of 1\n"),
    ("why --call 2", 0, "2 4096 recv: delivered 6144"),
    ("why --call 3", 4, REFUSED),
    ("why --call 0", 4, REFUSED),
    ("why --call 3 text.toml", 2, "set-up refused"),
    ("audit", 0, "audit 2 wide memory_bits 16 calls 2 after 2\n"),
    ("audit --after 0", 0, "audit 2 wide memory_bits 16 calls 2 after 0\n"),
    ("audit --after 1", 0, "thread 2048 sending 6144 badge 0"),
    ("audit --after 3", 4, REFUSED),
    ("audit --slot 33", 4, REFUSED),
    ("audit --slot 33 text.toml", 2, "set-up refused"),
    ("ever --slot 33", 4, REFUSED),
    # parts
    ("ever", 0, "ever 3 wide memory_bits 16 calls 2 after 2\npart 1\n"),
    ("ever --after 1", 0, "waiting 2048 -> 6144 badge 0\n"),
    ("ever --without 4096,2048", 0, "after 2\nwithout 2048\nwithout 4096\n"),
    ("ever --without 2049", 0, "after 2\nwithout 2049 none\n"),
    ("ever --without nobody", 4, REFUSED),
    ("ever --without 2048,", 4, REFUSED),
    ("ever --without ''", 4, REFUSED),
    ("ever --after 3", 4, REFUSED),
    ("ever --names", 0, "ever 3 wide memory_bits 16 calls 2 after 2\npart 2048+4096\n  thread 2048 ready\n"),
    ("never 2048,4096 --names", 1, "never 2048 part 2048+4096 -> 4096 part 2048+4096 possible\n"),
    ("how 2048,4096 --names", 4, REFUSED),
    ("tree --names", 0, "tree 1 wide memory_bits 16 calls 2 after 2\n32 cnode 0 radix 4 "),
    # names, where the set-up has none
    ("check --names", 0, "1 2048 send: waiting"),
    ("check --strict --names", 0, "expected 1 of 1\n"),
    ("check --names text.toml", 2, "set-up refused 200 at text\n"),
    ("check --names - text.toml", 2, "-: expected 1 of 1\ntext.toml: set-up refused 200 at text\n"),
    ("trace --names", 0, "  + endpoint 6144 sending 2048\n"),
    ("trace --ways", 0, "  way cap 4 bits 64 from 2048 guard 0 size 60 index 0100 slot 128\n"),
    ("why --ways", 4, REFUSED),
    ("why --names", 0, "refused 0 of 2\nexpected 1 of 1\n"),
    ("threads --names", 0, "entries 2 of 2\n"),
    ("explore --names", 0, "explore 2 wide clients 1 calls 2\n"),
    ("explore --names --witness 2.1", 4, REFUSED),
    ("audit --slot 32 --names", 0, "audit 2 wide memory_bits 16 calls 2 after 2 slot 32\n"),
    ("audit --without 2048", 0, "audit 2 wide memory_bits 16 calls 2 after 2\nwithout 2048\n"),
    ("audit --without ''", 4, REFUSED),
    # drafts of policies, policies, and calls
    ("draft", 0, "policy = 2\ngroup = [\n"),
    ("draft --after 1 --without 2048", 0, "silent = [\"2048\"]\n"),
    ("draft --messages 2048", 0, "messages = [\"2048\"]\n"),
    ("draft --without 2049", 0, "policy = 2\ngroup = [\n"),
    ("draft --without nobody", 4, REFUSED),
    ("draft --after 3", 4, REFUSED),
    ("draft text.toml", 2, "set-up refused 200 at text\n"),
    ("draft --names", 4, REFUSED),
    ("draft --slot 33", 4, REFUSED),
    ("policy text.toml", 2, "policy refused 600 at text\n"),
    ("policy text.toml --listing", 2, "policy refused 600 at text\n"),
    ("policy text.toml --listing --how 1", 4, REFUSED),
    ("policy text.toml --how 1", 2, "policy refused 600 at text\n"),
    ("policy text.toml --how 2048,4096", 4, REFUSED),
    ("policy text.toml --how 1 --badge 1", 4, REFUSED),
    ("policy text.toml --how 1 --by 6144", 4, REFUSED),
    ("policy none.toml", 3, UNREAD),
    ("policy", 4, REFUSED),
    ("how 1", 4, REFUSED),
    ("how", 4, REFUSED),
    ("never", 4, REFUSED),
    ("never 2048,4096,2048", 4, REFUSED),
    # the forms of before
    ("audit --ever", 4, REFUSED),
    ("audit --ever --draft", 4, REFUSED),
    ("audit --never 2048,4096", 4, REFUSED),
    ("audit --how 2048,4096", 4, REFUSED),
    ("audit --policy text.toml", 4, REFUSED),
    ("audit --messages 2048", 4, REFUSED),
    # orders
    ("explore", 0, "explore 2 wide clients 1 calls 2\n"),
    ("explore --witness 2.1", 0, "format = 2\n"),
    ("explore --witness 2.2", 4, REFUSED),
    ("explore --witness stuck.1", 4, REFUSED),
    ("explore --witness 2", 4, REFUSED),
    ("explore --witness 2.1 text.toml", 2, "set-up refused 200 at text\n"),
    ("explore", 0, "orders 1 stuck 0\nexpected 1 of 1\n"),
    ("explore --first 1", 0, "orders 1 stuck 0\nexpected 1 of 1\n"),
    ("explore --states 0", 1, "states 0 limit calls "),
    ("explore --ends", 0, "clients 0 states 3 ends 1 orders 1 stuck 0\nexpected 1 of 1\n"),
    ("explore --ends --names --first 1", 0, "orders 1 stuck 0\nexpected 1 of 1\n"),
    ("explore --ends --states 0", 1, "clients 0 states 0 limit calls "),
    ("explore --ends --witness 2.1", 4, REFUSED),
    ("audit --ends", 4, REFUSED),
    ("explore none.toml", 3, UNREAD),
    # several files
    ("check - text.toml", 2, "-: expected 1 of 1\ntext.toml: set-up refused 200 at text\nfiles 2 met 1 unmet 0 refused 1 unread 0\n"),
    ("none.toml - text.toml", 3, "none.toml: cannot be read\n-: expected 1 of 1\ntext.toml: set-up refused 200 at text\nfiles 3 met 1 unmet 0 refused 1 unread 1\n"),
    ("text.toml check", 2, "set-up refused 200 at text\n"),
    ("check -- - --help", 3, "-: expected 1 of 1\n--help: cannot be read\nfiles 2 met 1 unmet 0 refused 0 unread 1\n"),
    ("check - -", 4, REFUSED),
    ("- text.toml -", 4, REFUSED),
    ("trace - text.toml", 4, REFUSED),
    ("policy - text.toml", 4, REFUSED),
    ("marks --of - text.toml", 4, REFUSED),
]
ASKED = [
    # the job and the file
    ("", 0, report(8)),
    ("check", 0, report(8)),
    ("check rows.toml", 0, report(9)),
    ("check -- --help", 0, report(12)),
    ("trace", 0, "trace 2 wide memory_bits 16 calls 8\n"),
    ("trace rows.toml", 0, "trace 2 wide memory_bits 16 calls 9\n"),
    ("threads", 0, "entries 8 of 8\n"),
    ("threads rows.toml", 0, "entries 9 of 9\n"),
    ("migrate", 2, "set-up refused 204 at top key format\n"),
    ("migrate check", 0, "format = 2\n"),
    ("rows.toml", 0, report(9)),
    ("chek", 0, report(10)),
    ("rows.toml trace", 0, "trace 2 wide memory_bits 16 calls 9\n"),
    ("trace -", 0, "trace 2 wide memory_bits 16 calls 8\n"),
    ("why rows.toml --call 2", 0, "2 4096 nbrecv: empty [met]\n  not refused\n"),
    ("audit -", 0, "audit 2 wide memory_bits 16 calls 8 after 8\n"),
    ("ever rows.toml", 0, "ever 3 wide memory_bits 16 calls 9 after 9\n"),
    ("never loader,a rows.toml", 1, " wide memory_bits 16 calls 9 after 9"),
    ("never loader,a", 1, " wide memory_bits 16 calls 8 after 8"),
    ("rows.toml audit --after 1", 0, "audit 2 wide memory_bits 16 calls 9 after 1\n"),
    ("explore", 0, "explore 2 wide clients 2 calls 8\n"),
    ("explore --first 1 rows.toml", 0, "explore 2 wide clients 2 calls 9\n"),
    # several files, all of them to be checked
    ("check a", 0, report(13)),
    ("check a b", 0, [summary("a", "b")]),
    ("a b c", 0, [summary("a", "b", "c")]),
    ("a b check", 0, [summary("a", "b", "check")]),
    ("check a -- -b c", 0, [summary("a", "-b", "c")]),
    ("check - a", 0, [summary("-", "a")]),
    ("a check b c", 0, [summary("b", "c")]),
    ("a check", 0, report(13)),
    # and to be marked
    ("marks a", 0, "marks 13 of 13 open 0\n"),
    ("marks a b", 0, ("a", "b")),
    ("marks - a", 0, ("-", "a")),
    # by an exercise, also one file alone
    ("marks --of e a b", 1, ("a", "b")),
    ("marks --of e a", 1, ("a",)),
    ("marks --of e", 1, ("-",)),
    # whose reasons are asked for
    ("why", 0, "refused 0 of 8\nexpected 8 of 8\n"),
    ("why --call 3 rows.toml", 0, ["3 2048 nbsend: dropped [met]\n  not refused\n"]),
    ("why rows.toml --call=0", 4, "--call 0: the set-up has 9 calls\n"),
    ("why --call 007", 0, ["7 2048 nbsend: dropped [met]\n  not refused\n"]),
    ("why --call 18446744073709551615", 4, "--call 18446744073709551615: the set-up has 8 calls\n"),
    # the state and the slot of an audit
    ("audit", 0, "audit 2 wide memory_bits 16 calls 8 after 8\n"),
    ("audit --after 3 rows.toml", 0, "audit 2 wide memory_bits 16 calls 9 after 3\n"),
    ("audit rows.toml --slot=160", 0, "audit 2 wide memory_bits 16 calls 9 after 9 slot 160\n"),
    ("audit --slot 160 --after 0", 0, "audit 2 wide memory_bits 16 calls 8 after 0 slot 160\n"),
    # parts, and who is trusted
    ("ever", 0, "ever 3 wide memory_bits 16 calls 8 after 8\npart 1\n"),
    ("ever --without loader", 0, "ever 3 wide memory_bits 16 calls 8 after 8\nwithout 2048 @loader\npart 1\n"),
    ("audit --without loader", 0, "name a 4096\nname loader 2048\nwithout 2048 @loader\n"),
    ("audit --names --without ''", 4, "--without: a word between its commas is empty\n"),
    ("ever --names", 0, "ever 3 wide memory_bits 16 calls 8 after 8\npart @loader+@a\n"),
    ("ever --without=@a,2048", 0, "ever 3 wide memory_bits 16 calls 8 after 8\nwithout 2048 @loader\nwithout 4096 @a\n"),
    ("ever --without ''", 4, "--without: a word between its commas is empty\n"),
    ("never --without '' loader,a", 4, "--without: a word between its commas is empty\n"),
    ("ever --after 3", 0, "ever 3 wide memory_bits 16 calls 8 after 3\n"),
    # the bounds of an exploration: four calls of each client have 70 orders, and two of the one and three of the other 10
    ("explore", 0, "orders 70 stuck 0\nexpected 8 of 8\n"),
    ("explore --first 3", 0, "orders 10 stuck 0\nexpected 8 of 8\n"),
    ("explore --states=5", 1, "states 5 limit calls "),
    ("explore --states 0 --first 0", 1, "states 0 limit calls 0\n"),
    # an order as a set-up
    ("explore --witness stuck.1", 4, "--witness stuck.1: explore tells no such order\n"),
    ("explore --first=1 --witness=2.3", 4, "--witness 2.3: explore tells no such order\n"),
    # options that do not go together, and one that is told
    ("check - rows.toml -", 4, "standard input"),
    ("- -", 4, "standard input"),
    ("audit --without loader --slot 160", 4, "--without"),
    ("how --hold --loss 1,2", 4, "--loss"),
    ("how --message --loss 1,2", 4, "--message"),
    ("how --loss --by 3 1,2", 4, "--by"),
    ("how --hold --badge 3 1,2", 4, "--badge"),
    ("never 1", 4, "FROM,TO"),
    ("how 1,2,3", 4, "FROM,TO"),
    ("explore --names --witness stuck.1", 4, "--witness"),
    ("policy - rows.toml", 4, "POLICY"),
    ("marks --of - rows.toml", 4, "--of"),
    # calls for help
    ("--help", 0, "Usage: sel4sim"),
    ("--version", 0, "sel4sim 20"),
    ("-V", 0, "sel4sim 20"),
    ("-h", 0, "Usage: sel4sim"),
    ("check --help", 0, "Usage: sel4sim"),
    ("trace --help", 0, "Usage: sel4sim"),
    ("migrate --help", 0, "Usage: sel4sim"),
    ("why --help", 0, "Usage: sel4sim"),
    ("audit --help", 0, "Usage: sel4sim"),
    ("ever --without loader --help", 0, "Usage: sel4sim"),
    ("never --help", 0, "Usage: sel4sim"),
    ("explore --help", 0, "Usage: sel4sim"),
    # what is none of these
    ("trace rows.toml more.toml", 4, UNTAKEN),
    ("migrate rows.toml more.toml", 4, UNTAKEN),
    ("rows.toml trace more.toml third.toml", 4, UNTAKEN),
    ("new rows.toml", 4, UNTAKEN),
    ("check --version", 4, UNTAKEN),
    ("-x", 4, UNTAKEN),
    ("check --file=rows.toml", 4, UNTAKEN),
    ("why --call", 4, UNTAKEN),
    ("why --call x", 4, UNTAKEN),
    ("why --call ''", 4, UNTAKEN),
    ("why --call -1", 4, UNTAKEN),
    ("why --call 18446744073709551616", 4, UNTAKEN),
    ("why --call 1 --call 2", 4, UNTAKEN),
    ("check --call 1", 4, UNTAKEN),
    ("audit --after x", 4, UNTAKEN),
    ("audit --slot", 4, UNTAKEN),
    ("audit --names=1", 4, UNTAKEN),
    ("audit --names --names", 4, UNTAKEN),
    ("ever --without", 4, UNTAKEN),
    ("audit --ever", 4, UNTAKEN),
    ("audit --never a,b", 4, UNTAKEN),
    ("audit --messages a", 4, UNTAKEN),
    ("ever --slot 160", 4, UNTAKEN),
    ("ever --by 160", 4, UNTAKEN),
    ("draft --names", 4, UNTAKEN),
    ("how --names a,b", 4, UNTAKEN),
    ("never", 4, UNTAKEN),
    ("how --hold", 4, UNTAKEN),
    ("never --hold a,b", 4, UNTAKEN),
    ("policy", 4, UNTAKEN),
    ("policy --how x p.toml", 4, UNTAKEN),
    ("policy --without a p.toml", 4, UNTAKEN),
    ("audit --first 1", 4, UNTAKEN),
    ("explore --first -1", 4, UNTAKEN),
    ("explore --states ''", 4, UNTAKEN),
    ("explore --after 1", 4, UNTAKEN),
    ("check --ever", 4, UNTAKEN),
    ("check --of e a", 4, UNTAKEN),
]


def is_wanted(text, wanted):
    """Whether a text is the wanted one, has the wanted part, or is a table of these names."""
    if isinstance(wanted, list):
        return text == wanted[0]
    if isinstance(wanted, tuple):
        return [row[0] for row in csv.reader(io.StringIO(text))] == ["file", *wanted]
    if wanted.startswith("sel4sim 20"):
        return text.startswith(wanted) and text.count("\n") == 1
    return wanted in text


def is_refused(status, error, wanted):
    """Whether standard error says what is wanted of a line that is refused, or of an input that cannot be read."""
    if wanted == UNREAD:
        return wanted in error
    return status == 4 and error.startswith(REFUSED) and (wanted == REFUSED or wanted in error and (UNTAKEN in error) == (wanted == UNTAKEN))


def reads_input(words):
    """Whether no file of COUNTS is named that is read in place of standard input; the one after --of is read next to it."""
    named = [word for before, word in zip(["", *words], words) if word in COUNTS and before != "--of"]
    return "-" in named or named in ([], ["check"])


def faults(program, folder, is_asked, line):
    """What is wrong with how a line ends."""
    words, status, wanted = line
    given = (setup(COUNTS["-"]) if reads_input(shlex.split(words)) else "") if is_asked else STORED
    ended, text, error = answer(program, *shlex.split(words), text=given, cwd=folder)
    if ended != status:
        yield f"status {ended}, wanted {status}"
    if wanted in (REFUSED, UNREAD) or status == 4:
        if text or not is_refused(status, error, wanted):
            yield f"{wanted!r} is wanted on standard error: {error!r}, and {text[:200]!r} was written"
    elif not is_wanted(text, wanted):
        yield f"{wanted!r} is wanted; written was {text[-400:]!r}, and on standard error {error[:400]!r}"


def tried_in(program, files, is_asked, lines):
    """How many of these lines end as they should in a folder with these files, and how many do not."""
    with tempfile.TemporaryDirectory() as folder:
        for name, text in files.items():
            pathlib.Path(folder, name).write_text(text, encoding="utf-8")
        return tried(lines, lambda line: faults(program, folder, is_asked, line))


def main(program):
    set_ups = {name: setup(count, FIRST_FORMAT if name == "check" else HEAD) for name, count in COUNTS.items() if name != "-"}
    results = [tried_in(program, dict.fromkeys(("text.toml", "run_me"), "format\n"), False, LINES), tried_in(program, set_ups, True, ASKED)]
    passed, failed = map(sum, zip(*results))
    print(f"{passed + failed} command lines, {failed} wrong")
    return 1 if failed or not all(right for right, _ in results) else 0


if __name__ == "__main__":
    sys.exit(main(str(pathlib.Path(sys.argv[1]).resolve())))
