#!/usr/bin/env python3
"""schema.py PROGRAM FOLDER..: docs/set-up.schema.json says what a set-up is, as far as a JSON schema can say it.

Of the files NAME.toml in the folders and in their folders, each that the program accepts has to be valid by the schema,
and each that it refuses has to be invalid, except those in BEYOND. Then single keys are left out, added, or given
another value, at bounds and past them: for each key of a set-up and of each operation, in both formats and profiles.
Schema and program have to agree on each, except where `beyond` says why a schema cannot.
"""
import json
import pathlib
import sys

import jsonschema

from program import document, run, side_by_side

SCHEMA = pathlib.Path(__file__).resolve().parent.parent / "docs" / "set-up.schema.json"

# The refused set-ups that a schema cannot refuse.
NO_TOML = "it is no TOML document"
LAYOUT = "how objects lie in the memory is beyond a schema"
NAMES = "that a name is one of `names` is beyond a schema"
BEYOND = {
    "byte_that_is_no_utf8": NO_TOML,
    "text_breaks_off": NO_TOML,
    "no_toml.policy": NO_TOML,    # of tests/answers/policy_faults
    "boot_objects_outside": LAYOUT,
    "too_many_capabilities": LAYOUT,
    "untyped_near_the_greatest_word": LAYOUT,
    "untyped_outside": LAYOUT,
    "untyped_overlaps_root_cnode": LAYOUT,
    "untyped_unaligned": LAYOUT,
    "name_that_does_not_exist": NAMES,
    "refused": NAMES,    # of tests/answers/audits
    "refused_name": NAMES,    # of tests/answers/trees
}

SLOTS = ["cap", "index", "depth", "src_root", "src_index", "src_depth"]
KEYS = {
    "retype": ["cap", "kind", "size_bits", "root", "index", "depth", "offset", "count"],
    "copy": [*SLOTS, "rights"],
    "mint": [*SLOTS, "rights", "word"],
    "move": SLOTS,
    "mutate": [*SLOTS, "word"],
    **{op: ["cap", "index", "depth"] for op in ("delete", "revoke", "cancel_badged")},
    **{op: ["cap", "label", "words"] for op in ("send", "nbsend")},
    **{op: ["cap"] for op in ("recv", "nbrecv", "suspend", "resume")},
    "set_space": ["cap", "root", "word"],
}
COMMON = ["thread", "op", "client", "expect"]
OTHERS = sorted({key for keys in KEYS.values() for key in keys} | {"base", "x"})

# What is written at a key in turn, by its kind: numbers at the ends of ranges and past them, words, texts, other types.
OTHER_TYPES = [True, 1.5, "x", [1], {"a": 1}]
ENDS = (0, 1, 2, 4, 7, 8, 12, 15, 20, 29, 47, 64, 256, 65536, 2**20 - 1, 2**52 - 1)
NUMBERS = [-1, 2.0, *sorted(set(ENDS) | {end + 1 for end in ENDS}), *OTHER_TYPES]
SOME_WORDS = [-1, 0, 2**32, "0x100000000", "@a", "@none", "x", [1]]
HEX = [f"0x{word:016x}" for bits in (20, 32, 52) for word in (2**bits - 1, 2**bits)]
WORDS = [*SOME_WORDS, True, 1.5, {"a": 1}, 2**32 - 1, 2**63 - 1, *HEX, "0x" + "F" * 16, "0x" + "0" * 17, "0x", "0xg", "0X1", "FF", "@A", "@"]
TEXTS = ["", "x y~", "\u00e9", "x" * 120, "x" * 121, "wide", "narrow", "done", "Send", 1, *OTHER_TYPES]
ARRAYS = [[], [0, 1, 2, 3], [0] * 5, ["@a"], ["@none"], ["x"], [-1], [2**32], [[]], [{}], *OTHER_TYPES]
TABLES = [{}, {"A": 1}, {"": 1}, {"a" * 40: 1}, {"a" * 41: 1}, {"a": "@a"}, {"a": -1}, {"a": "0x100000000"}, *OTHER_TYPES]
KINDS = {"profile": TEXTS, "op": TEXTS, "expect": TEXTS, "names": TABLES, "untyped": ARRAYS, "call": ARRAYS, "words": ARRAYS,
         "base": WORDS, "thread": WORDS, "cap": WORDS, "label": [*WORDS, *NUMBERS], "x": [1]}


def answered(program, texts):
    """The exit status of `check` and what it writes, for each of the texts."""
    return side_by_side(lambda text: run(program, "check", text=text), texts)


def setup(form, profile, op):
    """A set-up that has each key which it may have, with one call."""
    size = 2048 if profile == "wide" else 1024
    call = {"thread": size, "op": op, "client": 1, "expect": "done", **{key: 1 for key in KEYS[op]}}
    if "words" in call:
        call["words"] = [1]
    names = {"names": {"a": 1}} if form == 2 else {}
    return {"format": form, "profile": profile, "memory_bits": 16, "root_radix": 4, "threads": 2, "endpoints": 1,
            "clients": 2, "limit": 5, **names, "untyped": [{"base": 16384, "bits": 12}], "call": [call]}


def changed(table, key, values):
    """The table without a key, and with each of the values at it."""
    yield {name: value for name, value in table.items() if name != key}
    for value in values:
        yield {**table, key: value}


def operations(form, profile):
    """For each operation, set-ups in which one key of the call is another, and with one key more."""
    for op, keys in KEYS.items():
        whole = setup(form, profile, op)
        call = whole["call"][0]
        calls = [other for key in keys for other in changed(call, key, NUMBERS if key == "rights" else SOME_WORDS)]
        calls += [{**call, key: 1} for key in OTHERS]
        yield from ({**whole, "call": [other]} for other in calls)


def keys_of_all(form, profile):
    """Set-ups with a send in which one key of any table is another."""
    whole = setup(form, profile, "send")
    for key in [*whole, "names", "x"]:
        yield from changed(whole, key, KINDS.get(key, NUMBERS))
    for key in ("base", "bits", "x"):
        yield from ({**whole, "untyped": [other]} for other in changed(whole["untyped"][0], key, KINDS.get(key, NUMBERS)))
    call = whole["call"][0]
    for key in call:
        yield from ({**whole, "call": [other]} for other in changed(call, key, KINDS.get(key, NUMBERS)))


def parts(value):
    """A value and all that is in it."""
    yield value
    inner = value.values() if isinstance(value, dict) else value if isinstance(value, list) else []
    for part in inner:
        yield from parts(part)


def beyond(line, table):
    """Whether a schema cannot say that this is refused: a layout, a name that `names` lacks, an integer written 2.0."""
    names = [f"@{name}" for name in table["names"]] if isinstance(table.get("names"), dict) else []
    unnamed = [text for text in ("@a", "@none") if text not in names]
    inside = list(parts(table))
    return line.startswith("set-up refused 205 ") or any(
        isinstance(part, float) and part.is_integer() or isinstance(part, str) and part in unnamed for part in inside)


def wrong_files(program, folders, valid):
    """Files on which schema and program differ, and names in BEYOND that no file has."""
    import tomllib
    left = dict(BEYOND)
    for path in sorted(it for folder in folders for it in pathlib.Path(folder).rglob("*.toml")):
        status = run(program, "check", path)[0]
        why = left.pop(path.stem, None) if status == 2 else None
        try:
            is_valid = valid(tomllib.loads(path.read_bytes().decode()))
        except ValueError:
            is_valid = None
        if why == NO_TOML and is_valid is not None:
            yield f"{path}: it was read as TOML"
        elif why in (LAYOUT, NAMES) and not is_valid:
            yield f"{path}: the schema refuses it, and {why}"
        elif why is None and is_valid != (status != 2):
            yield f"{path}: the program's status is {status}, and by the schema it is {'' if is_valid else 'in'}valid"
    yield from (f"there is no refused set-up {name}" for name in left)


def wrong_trials(program, tables, valid):
    """Set-ups on which schema and program differ."""
    for table, (status, told) in zip(tables, answered(program, map(document, tables))):
        is_valid = valid(table)
        if is_valid != (status != 2) and not (is_valid and beyond(told, table)):
            yield f"by the schema {'' if is_valid else 'in'}valid, and status {status}: {told[:60]!r}\n{document(table)}"


def main():
    program, folders = sys.argv[1], sys.argv[2:]
    schema = json.loads(SCHEMA.read_text())
    jsonschema.Draft7Validator.check_schema(schema)
    valid = jsonschema.Draft7Validator(schema).is_valid
    tables = [*operations(1, "wide"), *operations(2, "narrow"), *keys_of_all(2, "wide"), *keys_of_all(1, "narrow")]
    wrong = [*wrong_files(program, folders, valid), *wrong_trials(program, tables, valid)]
    for fault in wrong:
        print(fault)
    files = sum(1 for folder in folders for _ in pathlib.Path(folder).rglob("*.toml"))
    print(f"{files} files and {len(tables)} set-ups with one key changed, {len(wrong)} on which schema and program differ")
    return 1 if wrong or not files else 0


sys.exit(main())
