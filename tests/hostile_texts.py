#!/usr/bin/env python3
"""hostile_texts.py PROGRAM FOLDER STORED: broken, deep and long set-ups through the built program.

Of each format that the set-ups in the folders of FOLDER have, the longest that is not just calls repeated, and of all the one that
sends the largest message: each beginning of it. Of the set-up STORED: itself with each byte replaced by others. Then texts that are deep or long, within limits of time, of
memory and of stack. The answer to each is a report (status 0 or 1) or the line of a refusal (status 2), with nothing on
standard error but lines in words beside a status other than 0, and a line for each call that was refused where nothing was
expected; a text that is too long is a failed read (status 3).
"""
import collections
import concurrent.futures
import os
import pathlib
import re
import resource
import subprocess
import sys
import tempfile
import tomllib

LARGEST = "messages/largest_message.toml"
POOL = 4
BYTES = (0, 10, 34, 91, 123, 255)
INPUT_LIMIT = 67_108_864
REFUSAL = re.compile(rb"set-up refused (20[0-5]) at (text|(top|untyped \d+|call \d+) key [A-Za-z0-9_?-]+|layout [a-z]+|untyped \d+ [a-z]+)\n")
TOO_LONG = re.compile(rb"sel4sim: reading failed\nsel4sim: .*: 67108864 bytes or more; a set-up has to be shorter\n")
# each of these lines may have four behind it that show a part of the text, and one with a place has three
WORDS = re.compile(rb"(?:sel4sim: .*\n(?:(?: .*\n){4})?|.+:\d+:\d+: (?:error|warning): .*\n(?: .*\n){3})*")
UNEXPECTED = re.compile(rb"^(\d+) \d+ \w+: refused [0-9/]+$", re.M)
MOST_NAMED = 20
LAST_LINE = re.compile(rb"(?:.*\n)*expected (\d+) of (\d+)\n")

# A program compiled without its proofs takes some eighty times as long: it is given each tenth text, and none that is longer.
IS_SLOW = "SEL4SIM_UNPROVED" in os.environ
EACH, MOST_BYTES = (10, 500_000) if IS_SLOW else (1, INPUT_LIMIT + 1)
# The bounds of one run: seconds of processor time, bytes of stack, and bytes of memory: so many, and so many for each byte of
# the text.
MOST_SECONDS = 20
MOST_STACK = 1 << 20
MOST_MEMORY = 64 << 20
MOST_MEMORY_A_BYTE = 48


def is_named(output, errors):
    """Whether just the report's calls that were refused and of which nothing was expected are told, each with its place and with
    the command that tells why, with the file where one was named."""
    calls = UNEXPECTED.findall(output)
    said = [rb".+:\d+:\d+: warning: call %s: refused, and nothing is expected of it; sel4sim why --call %s(?: \S+)? tells why\n"
            rb"(?: .*\n){3}" % (call, call) for call in calls[:MOST_NAMED]]
    more = [b"sel4sim: %d more\n" % (len(calls) - MOST_NAMED)] if len(calls) > MOST_NAMED else []
    return re.fullmatch(b"".join(said + more), errors) is not None


def is_answer(status, output, errors):
    """Whether this is a whole report with its status, or the line of a refusal with its own and some words."""
    if not WORDS.fullmatch(errors):
        return False
    if status == 2:
        return REFUSAL.fullmatch(output) is not None and errors != b""
    last = LAST_LINE.fullmatch(output)
    return last is not None and (status == 1 if last[1] != last[2] else status == 0 and is_named(output, errors))


def check(program, text):
    done = subprocess.run([program, "check"], input=text, capture_output=True, timeout=600)
    return done.returncode, done.stdout, done.stderr


def wrong_of(program, texts):
    """How many of the texts were run, and those that got another answer."""
    def run(named):
        name, text = named
        answer = check(program, text)
        return None if is_answer(*answer) else (name, answer)

    with concurrent.futures.ThreadPoolExecutor(POOL) as pool:
        found = list(pool.map(run, texts, chunksize=1))
    return len(found), [wrong for wrong in found if wrong]


def tell(what, count, wrong):
    for name, (status, output, errors) in wrong[:5]:
        print(f"{what}, {name}: status {status}, {output[:200]!r}, {errors[:200]!r}")
    print(f"{what}: {count} texts, {len(wrong)} wrong answers")
    return bool(wrong)


def longest_of_each_format(folder):
    """The longest set-up of each format, without those in which most calls stand more than once."""
    longest = {}
    for path in sorted(folder.glob("*/*.toml")):
        try:
            table = tomllib.loads(path.read_text())
        except (tomllib.TOMLDecodeError, UnicodeDecodeError):
            continue
        calls = table.get("call", [])
        kinds = collections.Counter(map(repr, calls))
        if path.with_suffix(".status").exists() or len(calls) > 2 * len(kinds):
            continue
        key = (table["format"], table.get("profile", "wide"))
        if key not in longest or path.stat().st_size > longest[key].stat().st_size:
            longest[key] = path
    return [longest[key] for key in sorted(longest)]


def beginnings(text):
    return ((f"the first {length} bytes", text[:length]) for length in range(0, len(text) + 1, EACH))


def replaced(text):
    for place in range(0, len(text), EACH):
        for byte in BYTES:
            yield f"byte {place} is {byte}", text[:place] + bytes([byte]) + text[place + 1:]


def long_texts(stored):
    """Deep and long texts: a name, the text, and the status that is wanted where one is."""
    sizes = b"format = 1\nmemory_bits = 16\nroot_radix = 4\nthreads = 2\nendpoints = 1\n"
    deep, parts, keys, long = 100_000, 30_000, 200_000, 4 << 20
    call = b'{ thread = 2048, op = "nbsend", cap = 4 },\n'
    yield "100,000 brackets that open", sizes + b"x = " + b"[" * deep, 2
    yield "100,000 brackets that open and close", sizes + b"x = " + b"[" * deep + b"]" * deep, 2
    yield "100,000 braces that open", sizes + b"x = " + b"{a=" * deep, 2
    yield "100,000 braces that open and close", sizes + b"x = " + b"{a=" * deep + b"1" + b"}" * deep, 2
    yield "a header of 100,000 brackets", sizes + b"[" * deep, 2
    yield "a dotted key of 30,000 parts", sizes + b".".join([b"a"] * parts) + b" = 1\n", 2
    yield "a header of 30,000 parts", sizes + b"[" + b".".join([b"a"] * parts) + b"]\n", 2
    yield "200,000 top keys", sizes + b"".join(b"k%d = 1\n" % i for i in range(keys)), 2
    yield "200,000 times one top key", sizes + b"k = 1\n" * keys, 2
    yield "a key of 4 MiB", sizes + b"k" * long + b" = 1\n", 2
    yield "a key of 4 MiB in quotes", sizes + b'"' + b"k" * long + b'" = 1\n', 2
    yield "a text of 4 MiB", sizes + b'call = [{ thread = 2048, op = "nbsend", cap = 4, expect = "' + b"k" * long + b'" }]\n', 2
    yield "an operation of 4 MiB", sizes + b'call = [{ thread = 2048, op = "' + b"k" * long + b'" }]\n', 2
    yield "a number of 4 MiB", sizes + b"clients = " + b"1" * long + b"\n", 2
    yield "65,536 calls", sizes + b"call = [\n" + call * 65_536 + b"]\n", 0
    named = b"".join(b'[[call]]\nthread = "@t"\nop = "nbsend"\ncap = "@n_%d"\n' % i for i in range(65_536))
    names = b"[names]\nt = 2048\n" + b"".join(b"n_%d = 4\n" % i for i in range(100_000))
    yield "100,000 names and 65,536 calls by them", sizes.replace(b"format = 1", b"format = 2") + names + named, 0
    yield "65,537 calls", sizes + b"call = [\n" + call * 65_537 + b"]\n", 2
    yield "4 MiB of zeros", bytes(long), 2
    yield "67,108,863 bytes", stored + b"#" * (INPUT_LIMIT - 1 - len(stored)), 0
    yield "67,108,863 bytes of lines", (stored + b"\n" * INPUT_LIMIT)[:INPUT_LIMIT - 1], 0
    yield "67,108,864 bytes", stored + b"#" * (INPUT_LIMIT - len(stored)), 3
    yield "67,108,865 bytes", stored + b"#" * (INPUT_LIMIT + 1 - len(stored)), 3
    yield "CR LF at each end of a line", stored.replace(b"\n", b"\r\n"), 0
    yield "a byte order mark", b"\xef\xbb\xbf" + stored, None


def run_within(program, text, folder):
    """Runs a text within the bounds: the answer, the seconds of processor time, and the bytes of memory at most; those are no
    fewer than this script has, as a run begins with its memory."""
    memory = MOST_MEMORY + MOST_MEMORY_A_BYTE * len(text)

    def limit():
        resource.setrlimit(resource.RLIMIT_CPU, (MOST_SECONDS, MOST_SECONDS))
        resource.setrlimit(resource.RLIMIT_STACK, (MOST_STACK, MOST_STACK))
        resource.setrlimit(resource.RLIMIT_AS, (memory, memory))
        resource.setrlimit(resource.RLIMIT_CORE, (0, 0))

    setup = pathlib.Path(folder, "setup.toml")
    setup.write_bytes(text)
    with open(f"{folder}/out", "wb") as out, open(f"{folder}/errors", "wb") as errors:
        words = [program, "check", str(setup)]
        process = subprocess.Popen(words, stdin=subprocess.DEVNULL, stdout=out, stderr=errors, preexec_fn=limit)
        _, status, used = os.wait4(process.pid, 0)
    process.returncode = os.waitstatus_to_exitcode(status)
    output, errors = (pathlib.Path(folder, name).read_bytes() for name in ("out", "errors"))
    return (process.returncode, output, errors), used.ru_utime + used.ru_stime, used.ru_maxrss * 1024


def is_wanted(answer, wanted):
    if wanted == 3:
        status, output, errors = answer
        return (status, output) == (3, b"") and TOO_LONG.fullmatch(errors) is not None
    return is_answer(*answer) and wanted in (None, answer[0])


def long_texts_are_bounded(program, stored):
    wrong = count = 0
    with tempfile.TemporaryDirectory() as folder:
        for name, text, wanted in long_texts(stored):
            if len(text) > MOST_BYTES:
                continue
            (status, output, errors), seconds, memory = run_within(program, text, folder)
            right = is_wanted((status, output, errors), wanted)
            said = (output + errors).splitlines()[:1] if status > 1 or not right else ["a report"]
            count += 1
            wrong += not right
            first = said[0] if said else "nothing"
            first = first.decode("utf-8", "replace") if isinstance(first, bytes) else first
            print(f"{name}: {len(text):,} bytes, {seconds:.2f} s, {memory / (1 << 20):.0f} MiB, status {status}, {first[:100]}"
                  + ("" if right else f", and not {wanted}"))
    print(f"deep and long texts: {count}, {wrong} wrong answers; each within {MOST_SECONDS} s of processor time, "
          f"{MOST_STACK >> 10} KiB of stack and {MOST_MEMORY >> 20} MiB of memory with {MOST_MEMORY_A_BYTE} bytes for each byte of the text")
    return bool(wrong)


def main():
    program, folder, stored = sys.argv[1], pathlib.Path(sys.argv[2]), pathlib.Path(sys.argv[3]).read_bytes()
    failed = False
    for path in (*longest_of_each_format(folder), folder / LARGEST):
        failed |= tell(f"each beginning of {path.parent.name}/{path.name}", *wrong_of(program, beginnings(path.read_bytes())))
    failed |= tell("each byte of the stored set-up replaced", *wrong_of(program, replaced(stored)))
    failed |= long_texts_are_bounded(program, stored)
    if IS_SLOW:
        print(f"not tried: nine of ten broken texts, and texts longer than {MOST_BYTES:,} bytes")
    return 1 if failed else 0


if __name__ == "__main__":
    sys.exit(main())
