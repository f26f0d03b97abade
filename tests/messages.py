#!/usr/bin/env python3
"""messages.py PROGRAM: what the program says on standard error of command lines, files and set-ups that are wrong.

The first line after a fault of the run or a refused command line is fixed; the others help to understand it.
"""
import os
import pathlib
import re
import subprocess
import sys
import tempfile
import unicodedata

SIZES = "memory_bits = 16\nroot_radix = 4\nthreads = 2\nendpoints = 1\n"
FIRST = "format = 1\n" + SIZES
SECOND = "format = 2\n" + SIZES + "names = { a = 2048, endpoint = 4 }\n"
NARROW = FIRST + 'profile = "narrow"\n'
CALL = '[[call]]\nthread = 2048\ncap = 4\n'
OPERATIONS = ("send, nbsend, recv, nbrecv, retype, copy, mint, move, mutate, delete, revoke, cancel_badged, set_space, "
              "suspend, resume")
RIGHTS = "a number from 0 to 15, the sum of 1 for w, 2 for r, 4 for g and 8 for p"
NAME = "1 to 40 of the letters a to z, the digits and _"
NUMBER = "a number from 0 on, or a text of 0x and 1 to 16 hexadecimal digits"
WORD = "a number from 0 on, a text of 0x and 1 to 16 hexadecimal digits, or in format 2 a text of @ and a name from names"
IN_NARROW = "; in a narrow set-up it is below 2^32"
LABEL = NUMBER + ", below 2^52"
KINDS = "; the kinds are 0 (untyped), 1 (thread control block), 2 (endpoint) and 4 (CNode)"
COPY_KEYS = "thread, op, client, expect, cap, index, depth, src_root, src_index, src_depth, rights"
NO_VALUE = "invalid value, expected a string, number, boolean, date-time, array or inline table"
NO_VALUE_THERE = "unexpected key or value, expected newline, `#`"
NO_KEY = "invalid key, expected letters, numbers, `-`, `_` or a quoted key"
TOO_LARGE = "TOML's integers end at 2^63 - 1; a greater word is written as \"0xFFFFFFFFFFFFFFFF\", in quotes"
QUOTES = 'a text stands in plain quotes, as "send"'


def toml(*words):
    """What is said of a text that is no TOML document."""
    return "TOML parse error: " + "; ".join(words)


ON_TOP = "is a key of the top table: put it above the first [..]"
FORMAT_1 = "1, since only a set-up of format 1 is migrated"
# the most characters of a line that are shown, and how many of a longer one before the place
MAX_SHOWN = 100
SHOWN_BEFORE = 40
KEYS = "format, profile, memory_bits, root_radix, threads, endpoints, clients, limit, untyped, call"


# of the refusals that a reply can give each one, and numbers of seL4's that it never gives
REFUSALS = "1 2 3 4 6/1 6/2 6/3 6/4 8 9 10 100 101".split()
NO_REFUSALS = "0 5 6 6/0 6/5 6/9 6/01 7 8/1 11 01 +1 99 102 1000".split()
# expectations with which a reply to a receive can begin, and others; of a message at most four words are delivered
DELIVERED = "delivered 6144 from 2048 to 4096 badge 0 label 7 words"
BEGINNINGS = ["waiting", "refused", "delivered", "delivered 6144 from 2048 to 4096", DELIVERED, DELIVERED + " 1 2 3 4"]
NO_DELIVERIES = ["delivered to 2048", "delivered x", "delivered 06144", "delivered @a", "delivered @endpoint from @nobody",
                 DELIVERED + " -1", DELIVERED + " 1 2 3 4 5"]
NO_WAITING = ["done", "dropped", "empty", "done ", "Waiting", "don", "done 1", "waiting 2048"]
NO_BEGINNINGS = [*NO_DELIVERIES, *NO_WAITING, "refused seL4_FailedLookup", "refused NotEnoughMemory", "refused AlignmentError",
                 "refused IllegalOperation", "refused 3 ", "refused ", "met", "delivered @endpoint from @a"]
# what is said to be meant in the place of such an expectation, where something is
MEANT = {**{expectation: "waiting" for expectation in NO_WAITING}, "refused seL4_FailedLookup": "refused 6/1, 6/2, 6/3 or 6/4",
         "refused NotEnoughMemory": "refused 10", "refused IllegalOperation": "refused 3",
         "refused 3 ": "refused 3", "refused ": "refused", "refused 6": "refused 6/1, 6/2, 6/3 or 6/4",
         "delivered @endpoint from @a": "delivered 6144 from 2048"}
DELIVERY = "; a delivery reads delivered E from F to T badge B label L words W .."
# of some operations the reply that is neither a refusal nor a delivery, and the keys that their calls need
WORDS = {"send": ("waiting", ""), "nbsend": ("dropped", ""), "recv": ("waiting", ""), "nbrecv": ("empty", ""),
         "suspend": ("done", ""), "delete": ("done", "index = 9\n"), "copy": ("done", "index = 9\nsrc_index = 4\n")}
DELIVERING = ("send", "nbsend", "recv", "nbrecv")


def untyped(base, bits):
    return f"[[untyped]]\nbase = {base}\nbits = {bits}\n"


def warned(call):
    """What is said of a call that was refused, and of which nothing was expected."""
    return f"warning: call {call}: refused, and nothing is expected of it; sel4sim why --call {call} tells why"


def asking(calls):
    """What is said of calls whose expectation asks."""
    return f"standard input: calls that ask: {calls}; the report shows their replies, and sel4sim marks does not"


# a set-up on standard input, the exit status of check, and the whole of standard error, without `sel4sim: ` and without places
SETUPS = [
    (FIRST, 0, []),
    (FIRST + CALL.replace("cap = 4", "cap = 9") + 'op = "send"\n', 0,
     [warned(1)]),
    (FIRST + (CALL.replace("cap = 4", "cap = 9") + 'op = "send"\n') * 23 + CALL.replace("cap = 4", "cap = 9")
     + 'op = "send"\nexpect = "refused"\n', 0, [*(warned(call) for call in range(1, 21)), "3 more"]),
    (FIRST + CALL + 'op = "nbsend"\nexpect = "empty"\n', 1,
     ['error: call 1: dropped, and not empty; no reply to nbsend begins with "empty"; did you mean dropped?']),
    (FIRST + CALL + 'op = "nbsend"\nexpect = "refused"\n', 1, ["error: call 1: dropped, and not refused"]),
    (FIRST + CALL + 'op = "nbsend"\nexpect = "?"\n', 1, [asking("1")]),
    (FIRST + CALL + 'op = "nbsend"\nexpect = "? badge"\n', 1, [asking("1")]),
    (FIRST + (CALL + 'op = "nbsend"\nexpect = "?"\n') * 23, 1, [asking(", ".join(map(str, range(1, 21))) + " and 3 more")]),
    (FIRST + CALL + 'op = "nbsend"\nexpect = "delivered 6144 from 2048"\n', 1,
     ["error: call 1: dropped, and not delivered 6144 from 2048"]),
    (FIRST + CALL + 'op = "nbsend"\nexpect = "refused IllegalOperation"\n', 1,
     ['error: call 1: dropped, and not refused IllegalOperation; no reply to nbsend begins with "refused IllegalOperation"; '
      "did you mean refused 3?"]),
    (FIRST + CALL + 'op = "nbsend"\nexpect = "delivered to 2048"\n', 1,
     ['error: call 1: dropped, and not delivered to 2048; no reply to nbsend begins with "delivered to 2048"' + DELIVERY]),
    (FIRST + CALL + 'op = "Send"\n', 2,
     [f'call 1, key op: there is no operation "Send"; did you mean send? The operations are {OPERATIONS}']),
    (FIRST + CALL + 'op = "seL4_NBSend"\n', 2,
     [f'call 1, key op: there is no operation "seL4_NBSend"; did you mean nbsend? The operations are {OPERATIONS}']),
    (FIRST + CALL + 'op = "seL4_CNode_CancelBadgedSends"\n', 2,
     [f'call 1, key op: there is no operation "seL4_CNode_CancelBadgedSends"; did you mean cancel_badged? The operations are {OPERATIONS}']),
    (FIRST + CALL + 'op = "recieve"\n', 2,
     [f'call 1, key op: there is no operation "recieve"; did you mean recv? The operations are {OPERATIONS}']),
    (FIRST + CALL + 'op = "seL4_Call"\n', 2,
     [f'call 1, key op: there is no operation "seL4_Call"; a call is a send and a recv, on two endpoints; the operations are {OPERATIONS}']),
    (FIRST + CALL + 'op = "seL4_Reply"\n', 2,
     [f'call 1, key op: there is no operation "seL4_Reply"; this one of seL4\'s is left out; the operations are {OPERATIONS}']),
    (FIRST + CALL + 'op = "zzz"\n', 2, [f'call 1, key op: there is no operation "zzz"; the operations are {OPERATIONS}']),
    (FIRST + CALL.replace("cap = 4", 'cap = "4"') + 'op = "recv"\n', 2,
     [f'call 1, key cap: the value is "4"; it has to be {WORD}; write 4 without quotes']),
    (FIRST.replace("threads = 2", 'threads = "2"'), 2,
     ['top, key threads: the value is "2"; it has to be a number from 1 to 64; write 2 without quotes']),
    (FIRST + CALL + 'op = "send"\nclient = 1\n', 2,
     ["call 1, key client: the value is 1; it has to be a number from 0 on and below the number of clients; without the key clients "
      "there is one client, 0"]),
    (SIZES, 2, ["top, key format: the key is missing; it has to be a number from 1 to 2; begin with format = 2, as sel4sim new does"]),
    ("format = 2\n" + SIZES + "[[names]]\na = 1\n", 2,
     [f"top, key names: the value is an array of 1; it has to be a table of numbers, whose keys have {NAME}; write [names]"]),
    (FIRST + '[call]\nthread = 2048\nop = "recv"\ncap = 4\n', 2,
     ["top, key call: the value is of the type table; it has to be an array of at most 65536 tables; write [[call]]"]),
    (FIRST + "[untyped]\nbase = 16384\nbits = 12\n", 2,
     ["top, key untyped: the value is of the type table; it has to be an array of at most 64 tables; write [[untyped]]"]),
    (FIRST + CALL + 'op = "copy"\nindex = 8\nsrc_index = 4\nrights = "wr--"\n', 2,
     [f'call 1, key rights: the value is "wr--"; it has to be {RIGHTS}']),
    (FIRST + CALL + 'op = "send"\nlabel = "@x"\n', 2,
     ['call 1, key label: the value is "@x"; it has to be ' + LABEL + "; a label takes no name"]),
    (FIRST + CALL + 'op = "send"\nwords = 1\n', 2,
     [f"call 1, key words: the value is 1; it has to be an array of at most 4 of these: {WORD}"]),
    (FIRST + CALL.replace("2048", '"@x"') + 'op = "send"\n', 2,
     [f'call 1, key thread: the value is "@x"; it has to be {WORD}']),
    (SECOND + CALL.replace("2048", '"@a"').replace("cap = 4", 'cap = "@endpont"') + 'op = "recv"\n', 2,
     ['call 1, key cap: names has no "endpont"; did you mean endpoint?']),
    (SECOND + CALL.replace("2048", '"@nobody"') + 'op = "recv"\n', 2, ['call 1, key thread: names has no "nobody"; the names are a, endpoint']),
    (SECOND + CALL.replace("2048", '"a"') + 'op = "recv"\n', 2, ['call 1, key thread: a name is written with @, as "@a"']),
    (SECOND + '[[untyped]]\nbase = "@a"\nbits = 5\n', 2,
     [f'untyped 1, key base: the value is "@a"; it has to be {NUMBER}']),
    (FIRST + CALL.replace("cap = 4", "cap = -1") + 'op = "recv"\n', 2,
     [f"call 1, key cap: the value is -1; it has to be {WORD}"]),
    (NARROW + CALL.replace("cap = 4", "cap = 4294967296") + 'op = "recv"\n', 2,
     [f"call 1, key cap: the value is 4294967296; it has to be {WORD}{IN_NARROW}"]),
    (NARROW + CALL + 'op = "send"\nlabel = 1048576\n', 2,
     [f"call 1, key label: the value is 1048576; it has to be {NUMBER}, below 2^20"]),
    (NARROW + CALL + 'op = "send"\nwords = [1, 2, 3, 4, 5]\n', 2,
     [f"call 1, key words: the value is an array of 5; it has to be an array of at most 4 of these: {WORD}{IN_NARROW}"]),
    (NARROW + untyped(4294967296, 12), 2,
     [f"untyped 1, key base: the value is 4294967296; it has to be {NUMBER}{IN_NARROW}"]),
    (SECOND.replace("2048", "4294967296") + 'profile = "narrow"\n', 2,
     [f"top, key names: the value of a is 4294967296; it has to be {NUMBER}{IN_NARROW}"]),
    (FIRST + CALL.replace("cap = 4", "cap = 5") + 'op = "retype"\nkind = "endpoint"\nroot = 1\noffset = 8\ncount = 1\n', 2,
     [f'call 1, key kind: the value is "endpoint"; it has to be {WORD}{KINDS}']),
    (FIRST + CALL + 'op = "send"\nlabel = -1\n', 2, [f"call 1, key label: the value is -1; it has to be {LABEL}"]),
    (FIRST + CALL + 'op = "send"\nwords = [1, -1, "x"]\n', 2,
     [f"call 1, key words, element 2: the value is -1; it has to be {WORD}"]),
    (FIRST + CALL + 'op = "send"\nwords = [1, 2, "x"]\n', 2,
     [f'call 1, key words, element 3: the value is "x"; it has to be {WORD}']),
    (FIRST + CALL + 'op = "send"\nwords = [[]]\n', 2,
     [f"call 1, key words, element 1: the value is an array of 0; it has to be {WORD}"]),
    (NARROW + CALL + 'op = "send"\nwords = [1, 4294967296]\n', 2,
     [f"call 1, key words, element 2: the value is 4294967296; it has to be {WORD}{IN_NARROW}"]),
    (SECOND + CALL + 'op = "send"\nwords = ["@a", "0x1", "@b"]\n', 2,
     ['call 1, key words, element 3: names has no "b"; did you mean a?']),
    (FIRST + CALL + 'op = "send"\nwords = [1, -1, 3, 4, 5]\n', 2,
     [f"call 1, key words: the value is an array of 5; it has to be an array of at most 4 of these: {WORD}"]),
    (FIRST + "untyped = [1]\n", 2, ["top, key untyped: the value is an array of 1; it has to be an array of at most 64 tables"]),
    (FIRST + "call = 1\n", 2, ["top, key call: the value is 1; it has to be an array of at most 65536 tables"]),
    (FIRST + untyped(16384, 48), 2,
     ["untyped 1, key bits: the value is 48; it has to be the number of bits of an untyped region's size, from 4 to 47"]),
    (NARROW + untyped(16384, 30), 2,
     ["untyped 1, key bits: the value is 30; it has to be the number of bits of an untyped region's size, from 4 to 29"]),
    (FIRST + untyped(-1, 12), 2, [f"untyped 1, key base: the value is -1; it has to be {NUMBER}"]),
    (FIRST + CALL + 'op = "recv"\nlabel = 1\n', 2,
     ['call 1: there is no key "label"; the keys are thread, op, client, expect, cap']),
    (FIRST + CALL + 'op = "mint"\nindex = 8\nsrc_index = 4\nword = 1\nbadge = 16\n', 2,
     [f'call 1: there is no key "badge"; did you mean word? The keys are {COPY_KEYS}, word']),
    (FIRST + CALL + 'op = "copy"\nindex = 8\nsrc_index = 4\ndest_index = 8\n', 2,
     [f'call 1: there is no key "dest_index"; did you mean index? The keys are {COPY_KEYS}']),
    (FIRST + CALL + 'op = "copy"\nindex = 8\nsrc_index = 4\ndst = 8\n', 2,
     [f'call 1: there is no key "dst"; did you mean index? The keys are {COPY_KEYS}']),
    (FIRST + CALL + 'op = "recv"\nep = 4\n', 2,
     ['call 1: there is no key "ep"; did you mean cap? The keys are thread, op, client, expect, cap']),
    (FIRST + untyped(16384, 12) + "size = 4096\n", 2,
     ['untyped 1: there is no key "size"; did you mean bits? The keys are base, bits']),
    (FIRST + untyped(16384, 12) + "call = []\n", 2,
     [f'untyped 1: there is no key "call"; call {ON_TOP}, or write [[call]]; the keys are base, bits']),
    (FIRST + CALL + 'op = "recv"\n[call.names]\nx = 1\n', 2,
     [f'call 1: there is no key "names"; it {ON_TOP}; the keys are thread, op, client, expect, cap']),
    (FIRST + "memory_bit = 3\n", 2, [f'top: there is no key "memory_bit"; did you mean memory_bits? The keys are {KEYS}']),
    (FIRST + "k" * 100 + " = 1\n", 2, [f"top: there is no key of 100 bytes; the keys are {KEYS}"]),
    (FIRST + "names = {}\n", 2, ["top: names are a key of format 2, and this set-up has format 1"]),
    (SECOND.replace("a = 2048", "Alice = 2048"), 2, [f'top, key names: the key "Alice" is no name; a name has {NAME}']),
    (SECOND.replace("2048", '"@endpoint"'), 2,
     [f'top, key names: the value of a is "@endpoint"; it has to be {NUMBER}']),
    (FIRST.replace("16", "30"), 2, ["top, key memory_bits: the value is 30; it has to be a number from 12 to 20"]),
    (FIRST.replace("16", "65536"), 2,
     ["top, key memory_bits: the value is 65536; it has to be a number from 12 to 20; 2^16 is 65536"]),
    (FIRST + untyped(16384, 4096), 2,
     ["untyped 1, key bits: the value is 4096; it has to be the number of bits of an untyped region's size, from 4 to 47; 2^12 is "
      "4096"]),
    (FIRST.replace("endpoints = 1\n", ""), 2,
     ["top, key endpoints: the key is missing; it has to be a number from 0 to 256"]),
    (FIRST.replace("threads = 2", "threads = 64"), 2,
     ["the root CNode, the threads and the endpoints do not fit into the memory; raise memory_bits"]),
    (FIRST + untyped(0, 4), 2, ["untyped 1: it overlaps the root CNode at 0"]),
    (FIRST + untyped(4096, 12), 2, ["untyped 1: it overlaps thread 1 at 4096"]),
    (FIRST + untyped(6144, 5), 2, ["untyped 1: it overlaps endpoint 0 at 6144"]),
    (FIRST.replace("endpoints = 1", "endpoints = 3") + untyped(6176, 4), 2, ["untyped 1: it overlaps endpoint 2 at 6176"]),
    (FIRST + untyped(8192, 12) + untyped(16384, 12) + untyped(16384, 4), 2, ["untyped 3: it overlaps untyped 2 at 16384"]),
    (NARROW + untyped(1024, 4), 2, ["untyped 1: it overlaps thread 0 at 1024"]),
    (NARROW + untyped(3072, 10), 2, ["untyped 1: it overlaps endpoint 0 at 3072"]),
    (FIRST + untyped(65536, 4), 2,
     ["untyped 1: it ends at 65552, and the memory at 65536"]),
    (FIRST.replace("root_radix = 4", "root_radix = 2"), 2,
     ["the root CNode has too few slots for the capabilities of the boot; raise root_radix"]),
    (FIRST + untyped(16388, 5), 2,
     ["untyped 1: its base 16388 is no multiple of its size 32"]),
    ("format = 1\nthreads =\n", 2,
     [None]),
    (FIRST + CALL.replace("cap = 4", "cap = 18446744073709551615") + 'op = "recv"\n', 2,
     [toml("number out of range", TOO_LARGE)]),
    (FIRST + CALL.replace("cap = 4", "cap = 0xFFFFFFFFFFFFFFFF") + 'op = "recv"\n', 2,
     [toml(NO_VALUE, TOO_LARGE)]),
    (FIRST + CALL + "op = send\n", 2, [toml(NO_VALUE, QUOTES)]),
    (FIRST + CALL + "op = \u201csend\u201d\n", 2, [toml(NO_VALUE, QUOTES)]),
    ("// a comment\n" + FIRST, 2, [toml(NO_KEY, "a comment begins with #")]),
    ("format = 1 // one\n" + SIZES, 2, [toml(NO_VALUE_THERE, "a comment begins with #")]),
    ("format = 1;\n" + SIZES, 2, [toml(NO_VALUE_THERE, "a value has no ; behind it")]),
    ("format = 1 + 1\n" + SIZES, 2, [toml(NO_VALUE_THERE, "a value is one number, and no sum or product")]),
    ("format: 1\n" + SIZES, 2,
     [toml("key with no value, expected `=`", "a key has = behind it, as threads = 2")]),
    (FIRST + CALL + 'op = "send\n', 2, [toml("invalid string", "the quotation mark at the end is missing")]),
    (FIRST + CALL + 'op = "send"\nwords = [1 2]\n', 2,
     [toml(NO_VALUE, "a comma stands between two elements, as [1, 2]")]),
    (FIRST + CALL + 'op = "send"\nlabel = 07\n', 2,
     [toml(NO_VALUE, "a decimal number begins with no 0, as 7")]),
    ("format = 2\n" + SIZES + "[names]\nep = 4\nep = 5\n", 2,
     [toml("duplicate key", "ep stands in line 7 already")]),
    ("format = 2\n" + SIZES + "[names]\n" + 2 * ("k" * 100 + " = 4\n"), 2, [toml("duplicate key")]),
    ('{"format": 2}\n', 2,
     [toml(NO_KEY, "this looks like JSON; a set-up is TOML, with lines as threads = 2")]),
    (FIRST + "# caf\udce9\n", 2, [toml("invalid UTF-8", "save the text as UTF-8")]),
    (FIRST.encode("utf-16").decode("utf-8", "surrogateescape"), 2,
     [toml("invalid UTF-8", "this looks like UTF-16; save the text as UTF-8")]),
]

COMMANDS = ["check", "marks", "trace", "threads", "migrate", "why", "audit", "ever", "never", "draft", "how", "policy", "explore", "tree", "new",
            "import", "record"]

# the words of a command line, the first line of standard error, and a part of what follows it
LINES = [
    (["chek"], "sel4sim: command line refused", "sel4sim: chek is no command either; did you mean check?\n"),
    (["explor"], "sel4sim: command line refused", "sel4sim: explor is no command either; did you mean explore?\n"),
    (["forest"], "sel4sim: command line refused", "sel4sim: forest is no command either; sel4sim --help names them\n"),
    (["tre"], "sel4sim: command line refused", "sel4sim: tre is no command either; did you mean tree?\n"),
    (["chek.toml"], "sel4sim: command line refused", "sel4sim: chek.toml: No such file or directory (os error 2)\n"),
    (["trace", "a", "b"], "sel4sim: command line refused", "unexpected argument 'b' found"),
    (["trace", "a", "b"], "sel4sim: command line refused", "sel4sim: one file is read in a run; check and marks take several\n"),
    (["policy", "-"], "sel4sim: command line refused", "sel4sim: POLICY and --of name a file; for standard input write /dev/stdin\n"),
    (["check", "-", "a", "-"], "sel4sim: command line refused", "sel4sim: - stands for standard input, which can be read once\n"),
    (["why", "--call", "x"], "sel4sim: command line refused", "invalid value 'x' for '--call <N>': invalid digit found in string"),
    (["why", "--call", "-1"], "sel4sim: command line refused", "unexpected argument '-1' found"),
    (["why", "--call", "1", "--call", "2"], "sel4sim: command line refused", "the argument '--call <N>' cannot be used multiple times"),
    (["check", "--call", "1"], "sel4sim: command line refused", "unexpected argument '--call' found"),
    (["audit", "--naems"], "sel4sim: command line refused", "a similar argument exists: '--names'"),
    (["audit", "--names=yes"], "sel4sim: command line refused", "unexpected value 'yes' for '--names' found"),
    (["audit", "--ever"], "sel4sim: command line refused", "unexpected argument '--ever' found"),
    (["audit", "--never", "a,b"], "sel4sim: command line refused", "unexpected argument '--never' found"),
    (["never"], "sel4sim: command line refused", "the following required arguments were not provided:"),
    (["policy", "--how", "1"], "sel4sim: command line refused", "Usage: sel4sim policy --how <N> <POLICY> [FILE]\n"),
    (["policy", "--how", "a,b", "p.toml"], "sel4sim: command line refused", "invalid value 'a,b' for '--how <N>': invalid digit found in string"),
    (["nevre", "a.toml"], "sel4sim: command line refused", "sel4sim: nevre is no command either; did you mean never?\n"),
    (["never", "2048"], "sel4sim: command line refused", "sel4sim: FROM,TO: two threads are accepted, with a comma between them\n"),
    (["audit", "--after", ""], "sel4sim: command line refused", "cannot parse integer from empty string"),
    (["threads", "--first", "x"], "sel4sim: command line refused", "invalid value 'x' for '--first <N>': invalid digit found in string"),
    (["threads", "--first"], "sel4sim: command line refused", "a value is required for '--first <N>' but none was supplied"),
    (["threads", "--first", "18446744073709551616"], "sel4sim: command line refused", "number too large to fit in target type"),
    (["marks", "--strict"], "sel4sim: command line refused", "unexpected argument '--strict' found"),
    (["check", "--first", "1"], "sel4sim: command line refused", "unexpected argument '--first' found"),
    (["explore", "--states", "18446744073709551616"], "sel4sim: command line refused", "number too large to fit in target type"),
    (["help", "nosuch"], "sel4sim: command line refused", "unrecognized subcommand 'nosuch'"),
    (["hlp"], "sel4sim: command line refused", "sel4sim: hlp is no command either; did you mean help?\n"),
    (["chek", "a.toml"], "sel4sim: command line refused", "sel4sim: chek is no command either; did you mean check?\n"),
    (["simulate", "x"], "sel4sim: command line refused", "sel4sim: simulate: No such file or directory (os error 2)\n"),
    (["simulate", "x", "--fast"], "sel4sim: command line refused", "sel4sim: simulate is no command; sel4sim --help names them\n"),
    (["new", "a.toml"], "sel4sim: command line refused", "unexpected argument 'a.toml' found"),
    (["nw"], "sel4sim: command line refused", "sel4sim: nw is no command either; did you mean new?\n"),
    (["check", ""], "sel4sim: reading failed", "sel4sim: '': No such file or directory (os error 2)\n"),
    (["check", "a\udcff.toml"], "sel4sim: command line refused",
     "sel4sim: a word is not UTF-8: a\\xff.toml; name the file otherwise, or give it as standard input\n"),
    (["import", "--rights", "some"], "sel4sim: command line refused", "sel4sim: --rights: all or least is accepted\n"),
    (["import", "--flows", "--plain"], "sel4sim: command line refused", "sel4sim: --flows and --plain do not go together\n"),
    (["import", "--cdl", "--listing"], "sel4sim: command line refused", "sel4sim: --cdl goes neither with --listing nor with --shrink\n"),
    (["import", "--cdl", "--shrink", "12"], "sel4sim: command line refused", "sel4sim: --cdl goes neither with --listing nor with --shrink\n"),
    (["marks", "--of", "-", "a.toml"], "sel4sim: command line refused", "sel4sim: POLICY and --of name a file; for standard input write /dev/stdin\n"),
    (["trace", "chek"], "sel4sim: reading failed", "sel4sim: chek: No such file or directory (os error 2)\n"),
    (["--color"], "sel4sim: command line refused", "unexpected argument '--color' found"),
    (["check", "no such file.toml"], "sel4sim: reading failed", "sel4sim: no such file.toml: No such file or directory (os error 2)\n"),
    (["check", "/"], "sel4sim: reading failed", "sel4sim: /: Is a directory (os error 21)\n"),
]

# the words of a command line, the text on standard input, where standard output goes, the status, and the whole of standard
# error
INPUT_LIMIT = 67108864
STREAMS = [
    (["check"], "#" * INPUT_LIMIT, "/dev/null", 3,
     ["reading failed", f"standard input: {INPUT_LIMIT} bytes or more; a set-up has to be shorter"]),
    (["check"], FIRST, "/dev/full", 3, ["writing failed", "standard output: No space left on device (os error 28)"]),
    (["--help"], "", "/dev/full", 3, ["writing failed", "standard output: No space left on device (os error 28)"]),
    (["trace"], FIRST, "/dev/full", 3, ["writing failed", "standard output: No space left on device (os error 28)"]),
    (["trace"], FIRST + CALL + 'op = "nbsend"\nexpect = "delivered to 2048"\n', "/dev/null", 1,
     ['error: call 1: dropped, and not delivered to 2048; no reply to nbsend begins with "delivered to 2048"' + DELIVERY]),
    (["trace"], "format = 1\nthreads =\n", "/dev/null", 2, [None]),
    (["migrate"], FIRST, "/dev/null", 0, []),
    (["migrate"], SECOND, "/dev/null", 2, [f"top, key format: the value is 2; it has to be {FORMAT_1}"]),
    (["migrate"], FIRST.replace("1", "3", 1), "/dev/null", 2, [f"top, key format: the value is 3; it has to be {FORMAT_1}"]),
    (["migrate"], SIZES, "/dev/null", 2, [f"top, key format: the key is missing; it has to be {FORMAT_1}"]),
    (["migrate"], SECOND + "zzz = 1\n", "/dev/null", 2, [f"top, key format: the value is 2; it has to be {FORMAT_1}"]),
    (["migrate"], SECOND + '[[call]]\nthread = 2048\nop = "recv"\n', "/dev/null", 2,
     [f"top, key format: the value is 2; it has to be {FORMAT_1}"]),
    (["migrate"], FIRST + "zzz = 1\n", "/dev/null", 2, [f'top: there is no key "zzz"; the keys are {KEYS}']),
    (["migrate"], "format = 1\nthreads =\n", "/dev/null", 2, [None]),
    (["why", "--call", "5"], FIRST, "/dev/null", 4, ["command line refused", "--call 5: the set-up has 0 calls"]),
    (["why", "--call", "5"], "format = 1\nthreads =\n", "/dev/null", 2, [None]),
    (["audit", "--after", "5"], FIRST, "/dev/null", 4, ["command line refused", "--after 5: the set-up has 0 calls"]),
    (["tree", "--after", "5"], FIRST, "/dev/null", 4, ["command line refused", "--after 5: the set-up has 0 calls"]),
    (["tree", "--after", "0"], FIRST, "/dev/null", 0, []),
    (["tree", "--dot"], FIRST, "/dev/null", 0, []),
    (["tree", "--dot", "--after", "5"], FIRST, "/dev/null", 4, ["command line refused", "--after 5: the set-up has 0 calls"]),
    (["new"], "", "/dev/null", 0, []),
    (["new"], "", "/dev/full", 3, ["writing failed", "standard output: No space left on device (os error 28)"]),
    (["new", "--threads", "65"], "", "/dev/null", 4, ["command line refused", "--threads: a number from 1 to 64 is accepted"]),
    (["new", "--endpoints", "257"], "", "/dev/null", 4, ["command line refused", "--endpoints: a number from 0 to 256 is accepted"]),
    (["new", "--profile", "mcs"], "", "/dev/null", 4, ["command line refused", "--profile mcs: wide or narrow is accepted"]),
    (["new", "--untyped", "32768:12,x"], "", "/dev/null", 4,
     ["command line refused", "--untyped x: BASE:BITS is accepted, as 32768:12; with commas between regions"]),
    (["new", "--untyped", "0:12"], "", "/dev/null", 4,
     ["command line refused", "no set-up has these objects and regions: a region is not aligned, or overlaps what stands before it, "
      "or no memory has room for all"]),
    (["tree"], "format = 1\nthreads =\n", "/dev/null", 2, [None]),
    (["audit", "--slot", "33", "--after", "0"], FIRST, "/dev/null", 4,
     ["command line refused", "--slot 33: no full slot is there after 0 calls"]),
    (["audit", "--slot", "ep"], FIRST, "/dev/null", 4,
     ["command line refused", "--slot ep: no address, and no name of the set-up"]),
    (["audit", "--slot", ""], FIRST, "/dev/null", 4, ["command line refused", "--slot: the word is empty"]),
    (["never", "2048"], FIRST, "/dev/null", 4, ["command line refused", "FROM,TO: two threads are accepted, with a comma between them"]),
    (["never", "2048,4096,2048"], FIRST, "/dev/null", 4,
     ["command line refused", "FROM,TO: two threads are accepted, with a comma between them"]),
    (["never", "2048,nobody"], FIRST, "/dev/null", 4,
     ["command line refused", "FROM,TO nobody: no address, and no name of the set-up"]),
    (["never", "2048,2049"], FIRST, "/dev/null", 4, ["command line refused", "FROM,TO 2049: no thread is live there"]),
    (["never", "2048,"], FIRST, "/dev/null", 4, ["command line refused", "FROM,TO: a word between its commas is empty"]),
    (["never", ",2048"], FIRST, "/dev/null", 4, ["command line refused", "FROM,TO: a word between its commas is empty"]),
    (["never", "2048,4096", "--by", "ep"], FIRST, "/dev/null", 4,
     ["command line refused", "--by ep: no address, and no name of the set-up"]),
    (["never", "2048,4096", "--after", "5"], FIRST, "/dev/null", 4,
     ["command line refused", "--after 5: the set-up has 0 calls"]),
    (["never", "2048,4096"], FIRST, "/dev/null", 1, []),
    (["never", "2048,4096"], "format = 1\nthreads =\n", "/dev/null", 2, [None]),
    (["how", "2048,4096", "--hold", "--loss"], FIRST, "/dev/null", 4,
     ["command line refused", "--message, --hold and --loss do not go together"]),
    (["how", "2048,4096", "--message", "--hold"], FIRST, "/dev/null", 4,
     ["command line refused", "--message, --hold and --loss do not go together"]),
    (["how", "2048,4096", "--hold", "--badge", "1"], FIRST, "/dev/null", 4,
     ["command line refused", "--by and --badge go neither with --hold nor with --loss"]),
    (["how", "2048,4096", "--loss", "--by", "6144"], FIRST, "/dev/null", 4,
     ["command line refused", "--by and --badge go neither with --hold nor with --loss"]),
    (["how", "2048"], FIRST, "/dev/null", 4, ["command line refused", "FROM,TO: two threads are accepted, with a comma between them"]),
    (["how", "2048,nobody"], FIRST, "/dev/null", 4,
     ["command line refused", "FROM,TO nobody: no address, and no name of the set-up"]),
    (["how", "2048,2049"], FIRST, "/dev/null", 4, ["command line refused", "FROM,TO 2049: no thread is live there"]),
    (["how", "2048,2"], FIRST, "/dev/null", 4, ["command line refused", "FROM,TO 2048,2: both are one thread"]),
    (["audit", "--without", "2048"], FIRST, "/dev/null", 0, []),
    (["audit", "--without", "2048,0"], FIRST, "/dev/null", 4,
     ["command line refused", "--without 0: slot 0 of the root CNode has no thread"]),
    (["audit", "--without", "loder"], SECOND.replace(" a =", " loader ="), "/dev/null", 4,
     ["command line refused", "--without loder: no address, and no name of the set-up; the nearest name is loader"]),
    (["audit", "--without", "loader"], SECOND.replace(" a =", " loader_tcb ="), "/dev/null", 4,
     ["command line refused", "--without loader: no address, and no name of the set-up; the nearest name is loader_tcb"]),
    (["audit", "--names", "--after", "1"], FIRST, "/dev/null", 4,
     ["command line refused", "--after 1: the set-up has 0 calls"]),
    (["audit", "--slot", "32", "--without", "2048"], FIRST, "/dev/null", 4,
     ["command line refused", "--slot and --without do not go together"]),
    (["explore", "--names", "--witness", "stuck.1"], FIRST, "/dev/null", 4,
     ["command line refused", "--names and --witness do not go together"]),
    (["explore", "--ends", "--witness", "stuck.1"], FIRST, "/dev/null", 4,
     ["command line refused", "--ends and --witness do not go together"]),
    (["policy", "p.toml", "--how", "1", "--listing"], FIRST, "/dev/null", 4,
     ["command line refused", "--listing and --how do not go together"]),
    (["ever", "--messages", "nobody"], FIRST, "/dev/null", 4,
     ["command line refused", "--messages nobody: no address, and no name of the set-up"]),
    (["ever", "--without", "0"], FIRST, "/dev/null", 4,
     ["command line refused", "--without 0: slot 0 of the root CNode has no thread"]),
    (["ever", "--without", "2"], FIRST, "/dev/null", 0, []),
    (["never", "2,3", "--by", "3"], FIRST, "/dev/null", 4,
     ["command line refused", "--by 3: slot 3 of the root CNode has no endpoint"]),
    (["never", "2,3", "--by", "9999"], FIRST, "/dev/null", 1, []),
    (["ever", "--after", "5"], FIRST, "/dev/null", 4, ["command line refused", "--after 5: the set-up has 0 calls"]),
    (["ever", "--without", "2048,nobody"], FIRST, "/dev/null", 4,
     ["command line refused", "--without nobody: no address, and no name of the set-up"]),
    (["ever", "--without", "2048,"], FIRST, "/dev/null", 4,
     ["command line refused", "--without: a word between its commas is empty"]),
    (["ever", "--without", "2048,2049"], FIRST, "/dev/null", 0, []),
    (["ever", "--without", "2049, 2048"], FIRST, "/dev/null", 4,
     ["command line refused", "--without  2048: no address, and no name of the set-up"]),
    (["audit", "--after", "5", "--slot", "33"], FIRST, "/dev/null", 4,
     ["command line refused", "--after 5: the set-up has 0 calls"]),
    (["explore", "--first", "5"], FIRST, "/dev/null", 0, []),
    (["threads", "--first", "5"], FIRST, "/dev/null", 0, []),
    (["explore", "--witness", "1.1"], FIRST, "/dev/null", 4,
     ["command line refused", "--witness 1.1: explore tells no such order"]),
    (["explore", "--witness", "two"], FIRST, "/dev/null", 4,
     ["command line refused", "--witness two: explore tells no such order"]),
    (["explore"], "format = 1\nthreads =\n", "/dev/null", 2, [None]),
    (["explore"], FIRST, "/dev/full", 3, ["writing failed", "standard output: No space left on device (os error 28)"]),
    (["check"], "-- a layout\narch aarch64\n", "/dev/null", 2, [None, "this looks like capDL text, which sel4sim import reads"]),
    (["why"], "<system>\n</system>\n", "/dev/null", 2, [None, "this looks like a .system file, which sel4sim import reads"]),
    (["audit"], "policy = 1 +\n", "/dev/null", 2, [None, "this looks like a policy, which sel4sim policy reads"]),
    (["import"], "# a set-up\n" + FIRST, "/dev/null", 2, [None, "this looks like a set-up, which sel4sim check reads"]),
    (["import"], "arch\n", "/dev/null", 2, [None]),
    (["check"], FIRST.replace("1", "3", 1), "/dev/null", 2,
     ["top, key format: the value is 3; it has to be a number from 1 to 2"]),
]


# set-ups in which the table of a fault is written in one line, is one of several, or stands in another order, with the place of
# each fault: its line, its column and how many characters are underlined
PLACES = [
    (FIRST + 'call = [{ thread = 2048, op = "sned", cap = 4 }]\n', [(6, 26, 2)]),
    (FIRST + 'call = [\n    { thread = 2048, op = "recv", cap = 4 }, # sned\n    { thread = 2048, "op" = "sned", cap = 4 },\n]\n',
     [(8, 22, 4)]),
    (FIRST + 'call = [{ thread = 2048, op = "recv", cap = 4 }, { thread = 2048, op = "recv" }]\n', [(6, 50, 1)]),
    (FIRST + '[[call]] # a "quoted" [comment]\nthread = 2048\nop = \'recv\'\ncap = 4\n\n[[call]]\nop = "recv"\ncap = 4\n', [(11, 1, 2)]),
    (FIRST + '[[call]]\r\nthread = 2048\r\n\tcapp = 4 # \u00e9\u00e9\r\nop = "recv"\r\ncap = 4\r\n', [(8, 2, 4)]),
    (FIRST + '[[call]]\nthread = 2048\nop = "send"\ncap = 4\nwords = [1,\n  2, "x"]\n', [(10, 1, 5)]),
    (SECOND.replace("names = {", "names = { a_very_long_name = 1, another_very_long_name_that_fills_the_line = 2, B = 3,"), [(6, 1, 5)]),
    ("format = 1\nthreads =\n", [(2, 10, 1)]),
    ("format = 1\n\u00e9\u00e9 = 1\n", [(2, 1, 1)]),
    # a region and three calls at fault, of which one has two unknown keys and one other
    (FIRST.replace("root_radix = 4", "root_radix = 40") + "untyped = [{ base = 3, bits = 12, size = 1 }]\n"
     + CALL + 'op = "recv"\n' + CALL + 'op = "send"\nlable = 1\nword = 2\nlabel = -1\n' + CALL.replace("cap = 4\n", 'op = "recv"\n'),
     [(3, 1, 10), (6, 35, 4), (15, 1, 5), (16, 1, 4), (17, 1, 5), (18, 1, 2)]),
    # names that are keys of arrays of tables too
    ("format = 2\n" + SIZES + "[[untyped]]\nbase = 16384\n[[call]]\nthread = 2048\ncap = 4\n[names]\nuntyped = 16384\ncall = 4\n",
     [(6, 1, 2), (8, 1, 2)]),
    # names that no table lists
    (SECOND + CALL.replace("2048", '"@nobody"') + 'op = "recv"\n', [(8, 10, 9)]),
    (SECOND + CALL + 'op = "send"\nwords = ["@a", "0x1", "@b"]\n', [(11, 23, 4)]),
    (FIRST + 'call = [{ thread = "@x", op = "recv", cap = 4 }]\n', [(6, 20, 4)]),
    # an untyped region that overlaps an earlier one
    (FIRST + untyped(16384, 12) + untyped(16384, 4), [(10, 1, 4)]),
    # a line of more characters than are shown
    (FIRST + "call = [" + '{ thread = 2048, op = "recv", cap = 4 }, ' * 9 + '{ thread = 2048, op = "sned", cap = 4 }]\n', [(6, 395, 2)]),
    # more calls at fault than are told
    (FIRST + ('[[call]]\nop = "recv"\ncap = 4\n') * 30, [(6 + 3 * n, 1, 2) for n in range(20)]),
]

# a line that has a place, and the words behind it
PLACED = re.compile(r"standard input:(\d+):(\d+): ((?:error|warning): .*)")


def said(program, words, text, output=subprocess.PIPE):
    text = text.encode("utf-8", "surrogateescape")
    done = subprocess.run([program, *words], input=text, stdout=output, stderr=subprocess.PIPE, timeout=600)
    return done.returncode, done.stderr.decode()


def without_place(line):
    """A line of standard error without `sel4sim: `, or, where it has a place, without that."""
    told = PLACED.fullmatch(line)
    return told[3] if told else line.removeprefix("sel4sim: ") if line.startswith("sel4sim: ") else None


def fits(lines, wanted):
    """Whether these are the lines that are wanted, but for those that show a part of the text, and for `error:` where one has a place."""
    lines = [without_place(line) for line in lines if not line.startswith(" ")]
    return len(lines) == len(wanted) and None not in lines and all(w is None or line in (w, f"error: {w}") for line, w in zip(lines, wanted))


def places_shown(text, lines):
    """The places of the parts of a text that are shown; none where the lines that show one are not of its form."""
    found = []
    text = re.split("[\udc80-\udcff]", text)[0]    # what is UTF-8 of it
    blocks = [line for line in lines if line.startswith(" ") or PLACED.fullmatch(line)]
    for head, bar, shown, marks in zip(*[iter(blocks)] * 4):
        told = PLACED.fullmatch(head)
        mark = re.fullmatch(r"( +\| )( *)(\^+)", marks)
        if not told or not mark or bar != mark[1].rstrip():
            return None
        line, column = int(told[1]), int(told[2])
        wanted = "".join(" " if unicodedata.category(c) == "Cc" else c for c in text.split("\n")[line - 1].removesuffix("\r"))
        skipped = max(0, column - 1 - SHOWN_BEFORE) if len(wanted) > MAX_SHOWN else 0
        seen = f" {line} | {wanted[skipped : skipped + MAX_SHOWN]}"
        if shown != seen or len(mark[2]) != column - 1 - skipped or len(mark[1]) != len(f" {line} | "):
            return None
        found.append((line, column, len(mark[3])))
    return found if len(blocks) % 4 == 0 else None


def wrong_places(program):
    """Where the faults of a set-up are shown. Each one of the set-ups above that is refused has a part of its text shown, where the
    fault has a key there."""
    for setup, wanted in PLACES:
        status, error = said(program, ["check"], setup)
        if status != 2 or places_shown(setup, error.splitlines()) != wanted:
            yield f"{setup}status {status}, wanted {wanted}, said\n{error}"
    for setup, status, wanted in SETUPS:
        shown = places_shown(setup, said(program, ["check"], setup)[1].splitlines())
        is_missing = any("the key is missing" in (words or "") and words.startswith("top") for words in wanted)
        of_calls = [words for words in wanted if re.match("error|warning", words or "")]
        if shown is None or len(shown) != (len(of_calls) if status != 2 else 0 if is_missing else 1):
            yield f"{setup}shown {shown}"
            continue
        if of_calls:    # each call at its expectation, or where its table begins
            if any(setup.split("\n")[line - 1][:length] not in ("expect", "[[") for line, _, length in shown):
                yield f"{setup}shown {shown}"
            continue
        key = re.match(r"(?:top|untyped \d+|call \d+)(?:, key (\w+)|: there is no key \"(\w+)\")", wanted[0] or "") if shown else None
        if not key:
            continue
        line, column, length = shown[0]
        written = setup.split("\n")[line - 1][column - 1 : column - 1 + length]
        name = re.search(r'(?:names has no "|the value is "@)([^"]*)"', wanted[0])
        if written not in ((f'"@{name[1]}"',) if name else (key[1] or key[2], "[[", "[")):
            yield f"{setup}shown {written}"


def wrong_setups(program):
    """With --strict the same is said, and a warning is status 1."""
    for setup, status, wanted in SETUPS:
        is_warned = any((words or "").startswith("warning:") for words in wanted)
        for options, status in [([], status), (["--strict"], max(status, int(is_warned)))]:
            answer, error = said(program, ["check", *options], setup)
            if answer != status or not fits(error.splitlines(), wanted):
                yield f"{options} {setup}status {answer}, said\n{error}"


def wrong_strict_files(program):
    """Of several files one in which a call is refused that has no expectation is unmet with --strict, and met without."""
    refused = FIRST + CALL.replace("cap = 4", "cap = 9") + 'op = "send"\n'
    expected = refused + 'expect = "refused 2"\n'
    unmet = refused + 'expect = "done"\n'
    lines = ["refused.toml: expected 0 of 0", "expected.toml: expected 1 of 1"]
    last = "unmet.toml: expected 0 of 1"
    with tempfile.TemporaryDirectory() as folder:
        for name, text in [("refused", refused), ("expected", expected), ("unmet", unmet)]:
            pathlib.Path(folder, f"{name}.toml").write_text(text)
        for words, status, wanted in [
                (["refused", "expected"], 0, [*lines, "files 2 met 2 unmet 0 refused 0 unread 0"]),
                (["--strict", "refused", "expected"], 1, [*lines, "files 2 met 1 unmet 1 refused 0 unread 0"]),
                (["--strict", "expected"], 0, None),
                (["--strict", "expected", "expected"], 0, [lines[1], lines[1], "files 2 met 2 unmet 0 refused 0 unread 0"]),
                (["--strict", "refused", "unmet"], 1, [lines[0], last, "files 2 met 0 unmet 2 refused 0 unread 0"])]:
            words = [word if word.startswith("-") else f"{word}.toml" for word in words]
            done = subprocess.run([os.path.abspath(program), "check", *words], cwd=folder, capture_output=True, text=True, timeout=600)
            if done.returncode != status or wanted and done.stdout.splitlines() != wanted:
                yield f"{words}: status {done.returncode}, wrote\n{done.stdout}"


def wrong_expectations(program):
    """A receive waits, so `waiting` alone is met; a line is said of each expectation that no reply to it begins with."""
    begins = [*BEGINNINGS, *(f"refused {refusal}" for refusal in REFUSALS)]
    others = [*NO_BEGINNINGS, *(f"refused {refusal}" for refusal in NO_REFUSALS)]
    for expectation in [*begins, *others]:
        setup = SECOND + CALL + f'op = "recv"\nexpect = "{expectation}"\n'
        meant = f"; did you mean {MEANT[expectation]}?" if expectation in MEANT else ""
        meant = DELIVERY if expectation in NO_DELIVERIES else meant
        unmeetable = "" if expectation in begins else f'; no reply to recv begins with "{expectation}"{meant}'
        wanted = [] if expectation == "waiting" else [f"error: call 1: waiting, and not {expectation}{unmeetable}"]
        status, error = said(program, ["check"], setup)
        if status != (0 if expectation == "waiting" else 1) or not fits(error.splitlines(), wanted):
            yield f"{setup}status {status}, said\n{error}"


def wrong_words(program):
    """Of an operation a line is said of each expectation that replies to other operations alone begin with."""
    for op, (own, keys) in WORDS.items():
        for expectation in ["done", "waiting", "dropped", "empty", "delivered 6144"]:
            setup = FIRST + CALL + f'op = "{op}"\n{keys}expect = "{expectation}"\n'
            can_be = expectation == own or expectation == "delivered 6144" and op in DELIVERING
            unmeetable = "" if can_be else f'; no reply to {op} begins with "{expectation}"; did you mean {own}?'
            status, error = said(program, ["check"], setup)
            told = [without_place(line) for line in error.splitlines() if not line.startswith(" ")]
            wanted = rf"error: call 1: [a-z]+(?: [0-9/]+)?, and not {expectation}{re.escape(unmeetable)}"
            if status != len(told) or any(not re.fullmatch(wanted, line or "") for line in told) or not can_be and not told:
                yield f"{setup}status {status}, said\n{error}"


def wrong_helps(program):
    """`help` answers as `--help`, also of a command."""
    for words in [[], *([command] for command in COMMANDS)]:
        wanted, done = [subprocess.run([program, *line], capture_output=True, text=True, timeout=600)
                        for line in ([*words, "--help"], ["help", *words])]
        if not wanted.stdout or (wanted.stdout, "", 0) != (done.stdout, done.stderr, done.returncode):
            yield f"help {words}: status {done.returncode}, wrote\n{done.stdout}{done.stderr}"


IS_SLOW = "SEL4SIM_UNPROVED" in os.environ
MOST_CALLS = 2048 if IS_SLOW else 65536


def wrong_many(program):
    """As many calls as a set-up can have, all refused, with long expectations but for the last: twenty expectations that no
    reply can meet and the number of the others are told, and the refused call that expects nothing. A program compiled without
    its proofs is given fewer."""
    calls, text = MOST_CALLS, "x" * 120
    refused = CALL.replace("cap = 4", "cap = 9") + 'op = "send"\n'
    status, error = said(program, ["check"], FIRST + (refused + f'expect = "{text}"\n') * (calls - 1) + refused)
    unmet = f'refused 2, and not {text}; no reply to send begins with "{text}"'
    wanted = [*(f"error: call {n}: {unmet}" for n in range(1, 21)), f"{calls - 21} more", warned(calls)]
    if status != 1 or not fits(error.splitlines(), wanted):
        yield f"{calls} calls: status {status}, said\n{error[:4000]}"


def wrong_lines(program):
    for words, first, part in LINES:
        status, error = said(program, words, "")
        wanted = 4 if first.endswith("refused") else 3
        if status != wanted or error.split("\n")[0] != first or part not in error:
            yield f"{words}: status {status}, said\n{error}"


def wrong_streams(program):
    for words, text, path, wanted_status, wanted in STREAMS:
        with open(path, "wb") as output:
            status, error = said(program, words, text, output)
        if status != wanted_status or not fits(error.splitlines(), wanted):
            yield f"{words}: status {status}, said\n{error}"


def main():
    program = sys.argv[1]
    wrong = [*wrong_setups(program), *wrong_strict_files(program), *wrong_expectations(program), *wrong_words(program), *wrong_places(program),
             *wrong_many(program), *wrong_lines(program), *wrong_helps(program), *wrong_streams(program)]
    for text in wrong:
        print(text)
    expectations = len(BEGINNINGS) + len(NO_BEGINNINGS) + len(REFUSALS) + len(NO_REFUSALS) + 5 * len(WORDS) + len(COMMANDS) + 2
    print(f"{len(SETUPS) + expectations + len(PLACES) + len(LINES) + len(STREAMS)} messages, {len(wrong)} wrong")
    if IS_SLOW:
        print(f"not tried: the messages of 65,536 refused calls, but those of {MOST_CALLS:,}")
    return 1 if wrong else 0


sys.exit(main())
