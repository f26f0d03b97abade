"""The file of what was measured, docs/performance.csv: two lines on the machine, then a row for each subject, size and
program."""

import csv
import datetime
import io
import os
import pathlib
import re

PATH = pathlib.Path(__file__).parent.parent / "docs" / "performance.csv"

# The instructions of a run and of its parts, where these were told apart; its processor seconds, or the limit that
# ended it; its peak memory; the bytes that it wrote; and how many states it found, and steps between them.
COUNTS = ["instructions", "reading", "booting", "running", "reporting"]
FIELDS = ["subject", "size", "program", *COUNTS, "seconds", "peak_kib", "limit", "written", "states", "steps"]
TEXTS = ["subject", "program", "limit"]


def machine():
    found = re.search(r"^model name\s*: (.*)$", pathlib.Path("/proc/cpuinfo").read_text(), re.M)
    return f"{os.cpu_count()} processors, {found.group(1) if found else 'of an unknown model'}"


def write(rows):
    text = io.StringIO()
    text.write(f"# measured on {datetime.date.today()} by bench/growth.py\n# {machine()}\n")
    lines = csv.DictWriter(text, FIELDS, restval="", lineterminator="\n")
    lines.writeheader()
    lines.writerows(rows)
    PATH.write_text(text.getvalue())


def number(text):
    return None if text == "" else float(text) if "." in text or "e" in text else int(text)


def read():
    """The lines on the machine, and the rows, with a number or nothing where no subject or program stands."""
    lines = PATH.read_text().splitlines()
    notes = [line[2:] for line in lines if line.startswith("# ")]
    rows = csv.DictReader(line for line in lines if not line.startswith("#"))
    return notes, [{key: value if key in TEXTS else number(value) for key, value in row.items()} for row in rows]
