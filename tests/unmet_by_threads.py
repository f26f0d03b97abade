#!/usr/bin/env python3
"""unmet_by_threads.py PROGRAM: what standard error says of the calls of `threads` whose expectation is not met.

In these set-ups nobody ever waits. So in each order a send is dropped and a receive finds nothing, and the same is said; which is
said first hangs on the order, but where `--first` has all calls made in that of the set-up."""
import re
import sys

from program import answer

HEAD = "format = 2\nmemory_bits = 16\nroot_radix = 4\nthreads = 2\nendpoints = 1\nclients = 2\n"
SEND = '  { client = 0, thread = 2048, op = "nbsend", cap = 4, expect = "%s" },\n'
RECEIVE = '  { client = 1, thread = 4096, op = "nbrecv", cap = 4, expect = "%s" },\n'
COLUMN = 56  # of the expectation, in both


def setup(*calls, head=HEAD):
    return head + "call = [\n" + "".join(calls) + "]\n"


def said(line, message, shown):
    """What is said of the call on that line."""
    gap = " " * len(str(line))
    return f"standard input:{line}:{COLUMN}: error: {message}\n {gap} |\n {line} | {shown} {gap} | {'^^^^^^':>{COLUMN + 5}}\n"


# Call 1 stands on line 8. Call 5 is the third of client 1.
CALLS = (SEND % "dropped", RECEIVE % "refused 2", SEND % "refused 3", RECEIVE % "empty", RECEIVE % "done", SEND % "?")
CALL_2 = said(9, "call 2: empty, and not refused 2", CALLS[1])
CALL_3 = said(10, "call 3: dropped, and not refused 3", CALLS[2])
CALL_5 = said(12, 'call 5: empty, and not done; no reply to nbrecv begins with "done"; did you mean empty?', CALLS[4])
ALL = [CALL_2, CALL_3, CALL_5]
# The history has room for the first two calls; the others are not made, and nothing is said of them.
FULL = setup(*CALLS[1:], head=HEAD + "limit = 2\n")
MANY = setup(*[SEND % "refused 3"] * 22)
# The options, the set-up, the status, and what standard error says.
CASES = (
    (["--first", "6"], setup(*CALLS), 0, ALL),
    (["--first", "1"], setup(*CALLS), 0, ALL),
    ([], setup(*CALLS), 0, ALL),
    (["--first", "9"], FULL, 1,
     [said(9, "call 1: empty, and not refused 2", CALLS[1]), said(10, "call 2: dropped, and not refused 3", CALLS[2])]),
    ([], setup(SEND % "dropped", RECEIVE % "empty", SEND % "?"), 0, []),
    ([], MANY, 0,
     [said(n + 7, f"call {n}: dropped, and not refused 3", SEND % "refused 3") for n in range(1, 21)] + ["sel4sim: 2 more\n"]),
)


def parts(error):
    """What is said of each call, in order."""
    return re.split(r"^(?=standard input:|sel4sim: )", error, flags=re.MULTILINE)[1:] if error else []


def main():
    wrong = 0
    for words, text, status, wanted in CASES:
        ended, _, error = answer(sys.argv[1], "threads", *words, text=text)
        found = parts(error)
        has_order = words and int(words[1]) >= text.count("client =")
        same = found == wanted if has_order else sorted(found) == sorted(wanted)
        if ended != status or not same:
            wrong += 1
            print(f"threads {' '.join(words)}: status {ended}, wanted {status}; standard error")
            print(error, "wanted\n", *wanted, "of\n", text, sep="")
    print(f"{len(CASES)} set-ups, {wrong} wrong")
    return 1 if wrong else 0


sys.exit(main())
