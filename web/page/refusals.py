#!/usr/bin/env python3
"""refusals.py: writes the list of refusals in source/refusals.mjs, as docs/errors.md has it.

A refusal is there as "- **CODE `NAME`**, WORDS (`SET_UP`): ..": its number in a reply, seL4's name for it where it has one, and what it
means in short. So a card, a step, the tab why and the page of errors have one name and one meaning for each. join.py makes no page of a
list that is another one.
"""
import json
import pathlib
import re

FOLDER = pathlib.Path(__file__).resolve().parent
ERRORS = FOLDER.parent.parent / "docs" / "errors.md"
MODULE = FOLDER / "source" / "refusals.mjs"
REFUSAL = re.compile(r"^- \*\*(\d+(?:/\d)?)(?: `(\w+)`)?\*\*, (.+?) \(`\w+`\)", re.M | re.S)
LIST = re.compile(r"(?<=^export const REFUSALS = \[\n)(?:  .*\n)*(?=\];$)", re.M)


def listed():
    """The refusals of docs/errors.md: the number, the name and the words of each."""
    return [(code, name, re.sub(r"\s+", " ", words)) for code, name, words in REFUSAL.findall(ERRORS.read_text())]


def made():
    """The text of the module, with the list as it is to be."""
    lines = "".join(f"  {json.dumps(it)},\n" for it in listed())
    return LIST.sub(lambda _: lines, MODULE.read_text())


if __name__ == "__main__":
    MODULE.write_text(made())
