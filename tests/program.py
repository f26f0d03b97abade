"""How tests run the program, how they write set-ups, and how they tell what is wrong."""
import concurrent.futures
import json
import os
import subprocess

# The pairs of a capability store and a store of waiting threads that the program does not run; that of crates/test_calls does.
PAIRS = (("RowStore", "RowWaiters"), ("LinkedStore", "RowWaiters"), ("RowStore", "LinkedWaiters"))


def answer(program, *words, text=b"", **how):
    """The status of the program with these words and this text on standard input, what it writes, and what it says on standard error."""
    text = text.encode() if isinstance(text, str) else text
    done = subprocess.run([program, *words], input=text, capture_output=True, timeout=600, **how)
    return done.returncode, done.stdout.decode(), done.stderr.decode()


def run(program, *words, text=b""):
    """The status of the program, and what it writes."""
    return answer(program, *words, text=text)[:2]


def toml(value):
    """A value as TOML. A text of these has the same form as in JSON."""
    if isinstance(value, dict):
        return "{" + ", ".join(f"{json.dumps(key)} = {toml(part)}" for key, part in value.items()) + "}"
    if isinstance(value, list):
        return "[" + ", ".join(map(toml, value)) + "]"
    return json.dumps(value, ensure_ascii=False)


def document(table):
    """The text of a set-up with these keys, each table of a list on a line of its own."""
    def shown(value):
        has_tables = isinstance(value, list) and any(isinstance(it, dict) for it in value)
        return "[\n" + "".join(f"    {toml(it)},\n" for it in value) + "]" if has_tables else toml(value)
    return "".join(f"{json.dumps(key)} = {shown(value)}\n" for key, value in table.items())


def side_by_side(ask, them):
    """What is found of each of them, as many at a time as there are processors."""
    with concurrent.futures.ThreadPoolExecutor(len(os.sched_getaffinity(0))) as pool:
        return list(pool.map(ask, them))


def tried(them, faults):
    """Tells what is wrong with each of them, and returns how many passed and how many did not."""
    found = side_by_side(lambda it: list(faults(it)), them)
    for it, wrong in zip(them, found):
        if wrong:
            print(f"{it}: " + "\n    ".join(wrong))
    return found.count([]), len(them) - found.count([])
