#!/usr/bin/env python3
"""random_lists.py PROGRAM SEED COUNT: lists of a policy, and the entries that they stand for.

COUNT policies of version 2 are drawn from SEED, each for a set-up of random_places.py: ways, uses and takes with lists, badges for each of
several senders, and `both`. The entries are found here, as docs/policy.md says it: the lines of `--listing` have to be theirs, each once. The
same policy with one table for each entry has to be told in the same words: its listing, what breaks it and what of it is unused.
"""
import pathlib
import random
import re
import sys
import tempfile

import random_places
from program import answer, side_by_side, toml

PLACE = re.compile(r"^(\S+\.policy\.toml):\d+:\d+: ", re.M)
ANY = "any"


def listed(it):
    return it if isinstance(it, list) else [it]


def pairs(table):
    """Each of `from` with each of `to`, and the other way round with `both`; with the place of the first. None is of a name with itself."""
    for place, one in enumerate(listed(table["from"])):
        for other in listed(table["to"]):
            if one != other:
                yield from [(place, one, other), (place, other, one)][: 2 if table.get("both") else 1]


def badge_of(table, place):
    return table["badge"][place] if isinstance(table["badge"], list) else table["badge"]


def ways_of(table):
    return [{**table, "from": one, "to": other, "by": by, "badge": badge_of(table, place)}
            for place, one, other in pairs(table) for by in listed(table["by"])]


def uses_of(table):
    return [{**table, "group": group, "of": of, "badge": badge_of(table, place)}
            for place, group in enumerate(listed(table["group"])) for of in listed(table["of"])]


def takes_of(table):
    return [{"from": one, "to": other} for _, one, other in pairs(table)]


EXPANDED = {"way": ways_of, "use": uses_of, "take": takes_of}


def entries_of(policy):
    """A policy of which each table of a way, a use or a take is one entry."""
    def single(table):
        return {key: value for key, value in table.items() if key != "both"}
    return {key: [single(it) for table in value for it in EXPANDED[key](table)] if key in EXPANDED else value for key, value in policy.items()}


class Lists:
    """A set-up, and a policy with lists for it."""

    def __init__(self, program, seed, folder):
        self.program, self.seed, self.chance = program, seed, random.Random(f"lists {seed}")
        self.places = random_places.Places(program, f"lists {seed}", folder)
        names, groups = {base: f"@{name}" for name, base in self.places.names.items()}, self.places.parts
        self.groups = [f"g{number}" for number in range(1, len(groups) + 1)]
        self.threads = [sorted(threads - {random_places.LOADER}) for _, threads in groups]
        self.endpoints = {names.get(cap[1], cap[1]) for cap in self.places.caps.values() if cap[0] == "endpoint"}
        self.setup, self.policy, self.single = (pathlib.Path(folder) / f"{seed}.{it}.toml" for it in ("lists", "policy", "single.policy"))

    def some(self, them, most=3):
        """One of them, or a list of a few."""
        them = sorted(them, key=str)
        return self.chance.choice(them) if self.chance.random() < 0.4 else self.chance.sample(them, self.chance.randint(1, min(most, len(them))))

    def badge(self, senders, is_both=False):
        """A badge, or one for each of a list."""
        one = lambda: self.chance.choice((ANY, 1, 2, 7, 1 << 40))
        return [one() for _ in senders] if isinstance(senders, list) and not is_both and self.chance.random() < 0.5 else one()

    def way(self):
        start, end, both = self.some(self.groups), self.some(self.groups), self.chance.random() < 0.3
        rights = self.chance.choice(({}, {"rights": "w"}, {"rights": "wr"}, {"rights": "gpw"}))
        more = rights | ({"both": True} if both else {})
        return {"from": start, "to": end, "by": self.some(self.endpoints), "badge": self.badge(start, both), **more}

    def use(self):
        group = self.some(self.groups)
        return {"group": group, "of": self.some(self.endpoints), "badge": self.badge(group), "rights": self.chance.choice(("r", "w", "rg", "wrgp"))}

    def take(self):
        both = {"both": True} if self.chance.random() < 0.3 else {}
        return {"from": self.some(self.groups), "to": self.some(self.groups), **both}

    def drawn(self):
        """A policy: no table is of a group with itself alone, which is a fault."""
        made = {"policy": 2, "after": self.places.made, "silent": [random_places.LOADER], "calls_succeed": False}
        made["group"] = [{"name": name, "threads": threads} for name, threads in zip(self.groups, self.threads)]
        for key, draw in (("way", self.way), ("use", self.use), ("take", self.take)):
            if self.endpoints or key == "take":
                tables = [draw() for _ in range(self.chance.choice((0, 1, 2, 4)))]
                made[key] = [it for it in tables if EXPANDED[key](it)]
        return made

    def lines(self, entries):
        """The lines of the listing, by kind, in the order of their bytes, each once."""
        names = {base: f"@{name}" for name, base in self.places.names.items()}
        rights = lambda it: "".join(letter if letter in it.get("rights", "w") else "-" for letter in random_places.LETTERS)
        endpoint = lambda it: it if isinstance(it, str) else names.get(it, str(it))
        forms = {
            "way": lambda it: f"way {it['from']} -> {endpoint(it['by'])} badge {it['badge']} rights {rights(it)} -> {it['to']}",
            "use": lambda it: f"use {it['group']} {endpoint(it['of'])} badge {it['badge']} rights {rights(it)}",
            "take": lambda it: f"take {it['from']} -> {it['to']}",
        }
        return [line for key, form in forms.items() for line in sorted(set(map(form, entries.get(key, []))))]

    def told(self, file, *words):
        status, text, error = answer(self.program, "policy", str(file), *words, str(self.setup))
        return status, text, PLACE.sub("", error).replace("\n" + str(file), "\n")

    def found(self):
        """How many tables and entries there are, and what is wrong."""
        if not self.groups or not self.threads[0]:
            return 0, 0, []
        policy = self.drawn()
        entries, wrong = entries_of(policy), []
        self.setup.write_text(self.places.drawn.text)
        for file, made in ((self.policy, policy), (self.single, entries)):
            file.write_text("".join(f"{key} = {toml(value)}\n" for key, value in made.items()))
        for words in (["--listing"], []):
            many, one = self.told(self.policy, *words), self.told(self.single, *words)
            if many != one or many[0] > 1:
                wrong.append(f"{self.seed}: {' '.join(words)} with lists {many}, and without {one}")
        lines = [line for line in self.told(self.policy, "--listing")[1].splitlines() if line.split()[0] in EXPANDED]
        if lines != self.lines(entries):
            wrong.append(f"{self.seed}: the listing has {lines}, and not {self.lines(entries)}")
        return sum(len(policy.get(key, [])) for key in EXPANDED), sum(len(entries.get(key, [])) for key in EXPANDED), wrong


def main():
    program, seed, count = str(pathlib.Path(sys.argv[1]).absolute()), int(sys.argv[2]), int(sys.argv[3])
    with tempfile.TemporaryDirectory() as folder:
        found = side_by_side(lambda one: Lists(program, one, folder).found(), range(seed, seed + count))
    tables, entries, faults = (sum((it[i] for it in found), start) for i, start in enumerate((0, 0, [])))
    print("\n".join([*faults[:5], f"{count} policies, {tables} tables, {entries} entries, {len(faults)} faults"]))
    return 1 if faults or entries <= tables else 0


if __name__ == "__main__":
    sys.exit(main())
