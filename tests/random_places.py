#!/usr/bin/env python3
"""random_places.py PROGRAM SEED COUNT: the slots, threads and calls that stand below what breaks a policy.

COUNT set-ups are drawn from SEED: a loader makes CNodes and endpoints and hands capabilities on; then its clients send and receive, copy,
move, delete and revoke. A model here makes the calls as docs/behaviour.md says it, of the text of the set-up alone: so it knows behind
each call which slots are full and who waits, which slot stands below which, and what memory each part has. Each part is a group of a
policy of version 2 that allows a few uses, with other badges or fewer rights, and no take. The lines below each breach have to be those
that the model finds, in their order, and so have the notes on standard error, with the line and the column of each call; and below
each, if comments name a layout and the line of it that the call is for, one at that line.

The slots that the report of `check` lists have to be those of the model.
"""
import itertools
import pathlib
import random
import re
import sys
import tempfile

import parts
from program import answer, run, side_by_side

WORD, SLOT, TCB, ENDPOINT, RADIX, OWN_RADIX = 64, 32, 2048, 16, 5, 3
LOADER, FIRST_NODE, WHOLE, KINDS = TCB, 20, WORD - OWN_RADIX, {"endpoint": 2, "cnode": 4}
MOST_ERRORS = 20
LETTERS = "wrgp"
BREACH = re.compile(r"breach (?:(?P<kind>use|badge|right) g(?P<part>\d+) (?P<endpoint>\S+) badge (?P<badge>\w+) rights (?P<rights>\S+)"
                    r"|region g(?P<region>\d+) (?P<base>\S+) bits (?P<bits>\d+)|thread g(?P<hold>\d+) (?P<held>\S+)"
                    r"|way (?P<one>\S+) -> (?P<by>\S+) badge (?P<with>\w+) -> (?P<other>\S+)|grant g(?P<gives>\d+) -> (?P<over>\S+) -> g(?P<gets>\d+)"
                    r"|waiting (?P<sends>\S+) -> \S+ badge \d+|waiting \S+ -> (?P<receives>\S+)|take g(?P<by_part>\d+) -> g(?P<of_part>\d+))")


class Refused(Exception):
    """A call that changes nothing."""


def rights_of(word):
    return "".join(letter if word >> n & 1 else "-" for n, letter in enumerate(LETTERS))


class Kernel:
    """The slots of a set-up, and who waits. A capability is its kind, its object's address, and: of a CNode the bits of its radix and of its
    guard, of an endpoint the badge and the rights, of a region the bits of its size."""

    def __init__(self, threads, endpoints, regions):
        self.caps, self.above, self.original = {}, {}, set()
        self.waits, self.since, self.used = {}, {}, {}
        first = TCB * (1 + threads)
        boot = [("cnode", 0, RADIX, WORD - RADIX), *(("tcb", TCB * (1 + j)) for j in range(threads)),
                *(("endpoint", first + ENDPOINT * j, 0, LETTERS) for j in range(endpoints)), *(("untyped", base, bits) for base, bits in regions)]
        for number, cap in enumerate(boot, 1):
            self.caps[SLOT * number], self.above[SLOT * number] = cap, None
            self.original.add(SLOT * number)
        for j in range(threads):
            self.derive(SLOT, TCB * (1 + j), self.caps[SLOT])

    def derive(self, source, slot, cap):
        """Fills a slot with what is derived from another one's."""
        self.above[slot] = source if source in self.original else self.above[source]
        self.caps[slot] = cap
        if cap[0] == "endpoint" and cap[2] != self.caps[source][2]:
            self.original.add(slot)

    def clear(self, slot):
        """Empties a slot; the endpoint of the last capability to one ends. What stands below it stands below the next one above it."""
        gone, up = self.caps.pop(slot), self.above.pop(slot)
        self.original.discard(slot)
        self.above = {it: up if on == slot else on for it, on in self.above.items()}
        if gone[0] == "endpoint" and all(cap[:2] != gone[:2] for cap in self.caps.values()):
            self.waits = {thread: wait for thread, wait in self.waits.items() if wait[0] != gone[1]}

    def slot_in(self, cap, index, depth):
        """The slot that an index of so many bits names in a CNode of which this is a capability."""
        if cap is None or cap[0] != "cnode" or cap[2] + cap[3] != depth or index >> cap[2]:
            raise Refused
        return cap[1] + SLOT * index

    def slot_of(self, thread, word):
        return self.slot_in(self.caps.get(thread), word, WORD)

    def cap_of(self, thread, word, kind):
        cap = self.caps.get(self.slot_of(thread, word))
        if cap is None or cap[0] != kind:
            raise Refused
        return cap

    def named(self, call, *keys):
        """The slot that a call names by words for a CNode, an index and a depth."""
        root, index, depth = (call[key] for key in keys)
        return self.slot_in(self.cap_of(call["thread"], root, "cnode"), index, depth)

    def retype(self, call):
        untyped, slot = self.slot_of(call["thread"], call["cap"]), self.slot_of(call["thread"], call["offset"])
        if slot in self.caps or self.caps.get(untyped, " ")[0] != "untyped":
            raise Refused
        kind = next(it for it, number in KINDS.items() if number == call["kind"])
        size = SLOT << call["size_bits"] if kind == "cnode" else ENDPOINT
        base = -(-self.used.get(self.caps[untyped][1], self.caps[untyped][1]) // size) * size
        self.used[self.caps[untyped][1]] = base + size
        self.caps[slot] = (kind, base, call["size_bits"], 0) if kind == "cnode" else (kind, base, 0, LETTERS)
        self.above[slot] = untyped
        self.original.add(slot)

    def places(self, call):
        """The slot that a call fills, and the full one that it takes from."""
        slot, source = self.named(call, "cap", "index", "depth"), self.named(call, "src_root", "src_index", "src_depth")
        if slot in self.caps or source not in self.caps:
            raise Refused
        return slot, source

    def copy(self, call):
        slot, source = self.places(call)
        kind, base, *more = self.caps[source]
        if kind == "endpoint":
            more[1] = "".join(letter if letter in more[1] and letter in rights_of(call["rights"]) else "-" for letter in LETTERS)
        self.derive(source, slot, (kind, base, *more))

    def mint(self, call):
        slot, source = self.places(call)
        kind, base, *more = self.caps[source]
        if kind == "endpoint" and more[0]:
            raise Refused
        rights = rights_of(call["rights"])
        made = {"endpoint": lambda: (call["word"], "".join(it if it in rights else "-" for it in more[1])), "cnode": lambda: (more[0], call["word"])}
        self.derive(source, slot, (kind, base, *made.get(kind, lambda: more)()))

    def move(self, call):
        slot, source = self.places(call)
        self.caps[slot], self.above[slot] = self.caps.pop(source), self.above.pop(source)
        self.above = {it: slot if on == source else on for it, on in self.above.items()}
        if source in self.original:
            self.original ^= {source, slot}

    def delete(self, call):
        slot = self.named(call, "cap", "index", "depth")
        if slot in self.caps:
            self.clear(slot)

    def revoke(self, call):
        slot = self.named(call, "cap", "index", "depth")
        if slot not in self.caps:
            raise Refused
        while below := [it for it, on in self.above.items() if on == slot]:
            self.clear(below[0])

    def set_space(self, call):
        thread, root = self.cap_of(call["thread"], call["cap"], "tcb")[1], self.slot_of(call["thread"], call["root"])
        cap = self.cap_of(call["thread"], call["root"], "cnode")
        self.clear(thread)
        self.derive(root, thread, (*cap[:3], call["word"]))

    def message(self, call, sends, waits):
        thread = call["thread"]
        _, endpoint, badge, rights = self.cap_of(thread, call["cap"], "endpoint")
        if ("w" if sends else "r") not in rights:
            raise Refused
        other = next((it for it, (on, sent) in self.waits.items() if on == endpoint and (sent is None) == sends), None)
        if other is not None:
            del self.waits[other]
        elif waits:
            self.waits[thread] = (endpoint, badge if sends else None)

    def make(self, number, call):
        """Makes a call; of a thread that waits it is refused."""
        op, thread = call["op"], call["thread"]
        if thread in self.waits:
            return
        try:
            if op in ("send", "recv", "nbsend"):
                self.message(call, op != "recv", op != "nbsend")
            else:
                getattr(self, op)(call)
        except Refused:
            return
        if thread in self.waits:
            self.since[thread] = number


def size_of(cap):
    return {"cnode": lambda: SLOT << cap[2], "tcb": lambda: TCB, "untyped": lambda: 1 << cap[2], "endpoint": lambda: ENDPOINT}[cap[0]]()


def memory_of(kernel, thread):
    """What the part of a thread has: with each slot in it the CNode, the control block or the region that the slot names."""
    memory = {(thread, thread + TCB)}
    while more := {(cap[1], cap[1] + size_of(cap)) for slot, cap in kernel.caps.items()
                   if cap[0] != "endpoint" and any(first <= slot < end for first, end in memory)} - memory:
        memory |= more
    return memory


def parts_in(kernel, threads):
    """The parts of threads: their memory, and the threads; those that share a byte are one."""
    found = []
    for thread in threads:
        memory, mine = memory_of(kernel, thread), {thread}
        for other in [it for it in found if any(a < d and c < b for a, b in it[0] for c, d in memory)]:
            found.remove(other)
            memory, mine = memory | other[0], mine | other[1]
        found.append((memory, mine))
    return sorted(found, key=lambda it: min(it[1]))


class Drawn:
    """A set-up at random: its calls, its names and its text."""

    def __init__(self, chance):
        self.chance, self.clients, self.endpoints = chance, chance.choice((2, 3, 4)), chance.choice((1, 2))
        self.regions = [(32768, 13), (49152, 12), (57344, 10)]
        self.first_endpoint = 2 + 1 + self.clients
        self.region = self.first_endpoint + self.endpoints
        self.nodes = {j: FIRST_NODE + j for j in range(1, self.clients + 1)}
        self.calls = []
        self.lay_out()
        self.hand_on()
        self.spaces()
        self.live()
        self.text = self.written()

    def call(self, thread, op, **keys):
        self.calls.append({"thread": thread, "op": op, **keys})

    def lay_out(self):
        """The clients' CNodes; and an endpoint in a region that a client gets, so that it can be reached by that."""
        for slot in self.nodes.values():
            self.call(LOADER, "retype", cap=self.region, kind=KINDS["cnode"], size_bits=OWN_RADIX, root=1, offset=slot, count=1)
        if self.chance.random() < 0.3:
            self.call(LOADER, "retype", cap=self.region + 1, kind=KINDS["endpoint"], size_bits=0, root=1, offset=28, count=1)

    def place(self, j):
        """The words for a slot of the loader, or of a client's CNode."""
        return (1, self.chance.randrange(10, 20), WORD) if not j else (self.nodes[j], self.chance.randrange(3, 8), OWN_RADIX)

    def source(self):
        root, index, depth = self.place(self.chance.choice((0, *self.nodes)))
        boot = [*range(self.first_endpoint, self.region), 28]
        return (1, self.chance.choice(boot), WORD) if self.chance.random() < 0.6 else (root, index, depth)

    def hand_on(self):
        """The loader copies, mints, moves and deletes; now and then it hands on a region, a CNode or a thread."""
        for _ in range(self.chance.choice((6, 14, 24))):
            (cap, index, depth), (root, at, deep) = self.place(self.chance.choice((0, *self.nodes, *self.nodes))), self.source()
            op = self.chance.choice(("copy", "mint", "mint", "mint", "move", "delete", "revoke"))
            if op in ("delete", "revoke"):
                cap, index, depth = self.place(self.chance.choice((0, *self.nodes)))
            more = {"src_root": root, "src_index": at, "src_depth": deep} if op in ("copy", "mint", "move") else {}
            more |= {"rights": self.chance.choice((1, 2, 3, 5, 6, 7, 9, 15))} if op in ("copy", "mint") else {}
            more |= {"word": self.chance.choice((0, 1, 2, 7))} if op == "mint" else {}
            self.call(LOADER, op, cap=cap, index=index, depth=depth, **more)
        for what in (self.region + 1, self.region + 2):
            if self.chance.random() < 0.3:
                cap, index, depth = self.place(self.chance.choice((*self.nodes,)))
                self.call(LOADER, "move", cap=cap, index=index, depth=depth, src_root=1, src_index=what, src_depth=WORD)
        for what in (FIRST_NODE + 1, 3 + self.chance.randrange(self.clients), 2):
            if self.chance.random() < (0.03 if what == 2 else 0.1):
                cap, index, depth = self.place(self.chance.choice((*self.nodes,)))
                self.call(LOADER, "copy", cap=cap, index=index, depth=depth, src_root=1, src_index=what, src_depth=WORD, rights=15)

    def spaces(self):
        """Each client begins in its CNode, of which it may have a capability, or in that of any."""
        for j, node in self.nodes.items():
            if self.chance.random() < 0.8:
                self.call(LOADER, "mint", cap=node, index=2, depth=OWN_RADIX, src_root=1, src_index=node, src_depth=WORD, rights=15, word=WHOLE)
            begins = self.chance.choice((*self.nodes.values(),)) if self.chance.random() < 0.15 else node
            self.call(LOADER, "set_space", cap=2 + j, root=begins, word=WHOLE)

    def live(self):
        """What clients, and the loader in the end, do themselves."""
        for _ in range(self.chance.choice((0, 5, 12))):
            ops = ("send", "send", "recv", "recv", "nbsend", "delete", "copy", "move", "mint", "revoke")
            thread, op = TCB * (1 + self.chance.choice((*self.nodes,))), self.chance.choice(ops)
            keys = {"cap": self.chance.randrange(3, 8)}
            if op not in ("send", "recv", "nbsend"):
                keys = {"cap": 2, "index": self.chance.randrange(3, 8), "depth": WORD}
            if op in ("copy", "mint", "move"):
                keys |= {"src_root": 2, "src_index": self.chance.randrange(3, 8), "src_depth": WORD}
            keys |= {"rights": 15} if op in ("copy", "mint") else {}
            self.call(thread, op, **keys, **({"word": self.chance.choice((0, 3))} if op == "mint" else {}))
        if self.chance.random() < 0.3:
            self.call(LOADER, self.chance.choice(("send", "recv")), cap=self.first_endpoint)

    def written(self):
        """The text; a name is of an address, or of the slot of the root CNode that boot or a retype fills with its object."""
        self.names, first = {}, TCB * (2 + self.clients)
        objects = [("root", 0, 1), ("loader", LOADER, 2)]
        objects += [(f"client_{j}", TCB * (1 + j), 2 + j) for j in self.nodes]
        objects += [(f"ep{j}", first + ENDPOINT * j, self.first_endpoint + j) for j in range(self.endpoints)]
        objects += [(f"node_{j}", 32768 + (SLOT << OWN_RADIX) * (j - 1), node) for j, node in self.nodes.items()]
        values = []
        for name, address, slot in objects:
            if self.chance.random() < 0.8:
                self.names[name] = address
                values.append(f"{name} = {slot if not address or self.chance.random() < 0.5 and 'node' not in name else address}")
        lines = ["format = 2", "memory_bits = 16", f"root_radix = {RADIX}", f"threads = {1 + self.clients}", f"endpoints = {self.endpoints}"]
        lines.append("untyped = [" + ", ".join(f"{{ base = {base}, bits = {bits} }}" for base, bits in self.regions) + "]")
        lines.append("names = { " + ", ".join(values) + " }")
        self.layout = self.chance.choice((None, "two.system", 'a "b"\\c.cdl'))
        if self.layout:
            lines.insert(0, '# layout "%s"' % re.sub(r'["\\]', r"\\\g<0>", self.layout))
        self.at, self.origin = [], {n: (7 * n, f"slot {n} = \"é\": # x") for n in range(1, len(self.calls) + 1) if self.chance.random() < 0.7}
        comments = ["# {}: {}".format(*self.origin[n]) if n in self.origin else "" for n in range(1, len(self.calls) + 1)]
        shown = [[f'{key} = "{it}"' if key == "op" else f"{key} = {it}" for key, it in call.items()] for call in self.calls]
        if self.chance.random() < 0.5:
            lines.append("call = [")
            for keys, comment in zip(shown, comments):
                blanks = " " * self.chance.choice((0, 2, 4))
                self.at.append((len(lines) + 1, 1 + len(blanks)))
                lines.append(f"{blanks}{{ {', '.join(keys)} }},{'  ' if comment else ''}{comment}")
            return "\n".join([*lines, "]\n"])
        for keys, comment in zip(shown, comments):
            lines += ["# a comment"] * self.chance.choice((0, 0, 2)) + ([comment] if comment else [])
            self.at.append((len(lines) + 1, 1))
            lines += ["[[call]]", *keys]
        return "\n".join(lines) + "\n"


class Places:
    """A set-up, what the model says of it behind so many of its calls, and a policy for it."""

    def __init__(self, program, seed, folder):
        self.program, self.seed, chance = program, seed, random.Random(f"places {seed}")
        self.chance, self.drawn = chance, Drawn(chance)
        self.made = len(self.drawn.calls) if chance.random() < 0.7 else chance.randrange(len(self.drawn.calls) + 1)
        self.names = self.drawn.names
        self.kernel = Kernel(1 + self.drawn.clients, self.drawn.endpoints, self.drawn.regions)
        self.filled = {}
        for number, call in enumerate(self.drawn.calls[: self.made], 1):
            full = set(self.kernel.caps)
            self.kernel.make(number, call)
            self.filled |= {slot: number for slot in self.kernel.caps.keys() - full}
        self.parts = parts_in(self.kernel, [TCB * (1 + j) for j in self.drawn.nodes])
        self.caps = dict(sorted(self.kernel.caps.items()))
        self.part = {slot: self.part_at(slot) for slot in self.caps}
        self.setup, self.policy = (pathlib.Path(folder) / f"{seed}.{it}" for it in ("toml", "policy.toml"))

    def part_at(self, address):
        return next((number for number, (memory, _) in enumerate(self.parts, 1) if any(first <= address < end for first, end in memory)), None)

    def policy_text(self):
        """Each part is a group. Of a few uses another badge is allowed, or other rights."""
        lines = ["policy = 2", f"seL4_grant = {self.chance.choice(('true', 'false'))}", "calls_succeed = false", f"silent = [{LOADER}]"]
        lines += [f"after = {self.made}"] if self.made < len(self.drawn.calls) else []
        for number, (_, threads) in enumerate(self.parts, 1):
            mine = ", ".join(str(thread) for thread in sorted(threads - {LOADER}))
            lines += ["[[group]]", f'name = "g{number}"', f"threads = [{mine}]"]
        for slot, cap in self.caps.items():
            if cap[0] == "endpoint" and self.part[slot] and self.chance.random() < 0.3:
                letters = self.chance.choice((cap[3].replace("-", ""), cap[3].replace("-", "")[:1], "w", "r"))
                badge = self.chance.choice(('"any"', 7, 4242))
                lines += ["[[use]]", f'group = "g{self.part[slot]}"', f"of = {cap[1]}", f"badge = {badge}", f'rights = "{letters}"']
        return "\n".join(lines) + "\n"

    def name(self, address):
        return next((f"@{name}" for name, base in self.names.items() if base == address), None)

    def address(self, word):
        return self.names[word[1:]] if word.startswith("@") else int(word)

    def slot_name(self, slot):
        """A slot by its index in a CNode that has a name and that a full slot names, or as the root of a thread with a name, or its address."""
        node = next(((cap[1], cap[2]) for cap in self.caps.values() if cap[0] == "cnode" and 0 <= slot - cap[1] < SLOT << cap[2]), None)
        if node:
            name = self.name(node[0])
            return f"{name}[{(slot - node[0]) // SLOT}]" if name else str(slot)
        name = self.name(slot)
        return f"{name}.cspace" if name else str(slot)

    def slot_text(self, slot):
        """A slot as it stands below a breach, and what a note says of it."""
        call, name = self.filled.get(slot), self.slot_name(slot)
        return (f"slot {name} call {call}", [(call, f"call {call} fills {name}")]) if call else (f"slot {name} boot", [])

    def thread_text(self, thread):
        name, call = self.name(thread) or str(thread), self.kernel.since[thread]
        return f"thread {name} call {call}", [(call, f"by call {call} {name} waits")]

    def first_slot(self, some, fits):
        """The first slot of some parts, by address, that holds what fits: its text, and its notes."""
        return next((self.slot_text(slot) for slot, cap in self.caps.items() if self.part[slot] in some and fits(cap)), None)

    def around(self, address):
        """Whether a capability is to a region in which an address lies."""
        return lambda cap: cap[0] == "untyped" and 0 <= address - cap[1] < 1 << cap[2]

    def end(self, some, endpoint, lets, waits):
        """By what some parts do something on an endpoint: a capability, a region, or a thread that waits."""
        found = self.first_slot(some, lambda cap: cap[:2] == ("endpoint", endpoint) and lets(cap)) or self.first_slot(some, self.around(endpoint))
        return found or next((self.thread_text(it) for it, (on, badge) in sorted(self.kernel.waits.items())
                              if on == endpoint and waits(badge) and self.part_at(it) in some), None)

    def sender(self, some, endpoint, badge):
        """The first of some parts that sends to an endpoint with a badge; 0 is any, and a part that sends with any sends with no other."""
        for part in some:
            mine = [cap for slot, cap in self.caps.items() if self.part[slot] == part]
            badges = {cap[2] for cap in mine if cap[:2] == ("endpoint", endpoint) and "w" in cap[3]}
            waiting = {sent for it, (on, sent) in self.kernel.waits.items() if on == endpoint and sent is not None and self.part_at(it) == part}
            badges = {0} if 0 in badges or any(map(self.around(endpoint), mine)) else badges | waiting
            if badge in badges:
                return part
        return None

    def way(self, one, endpoint, badge, other):
        """The ends of a way: `one` and `other` are labels of parts, or the loader."""
        loader = self.thread_text(LOADER) if LOADER in self.kernel.waits else None
        sender = self.sender(numbers(one), endpoint, badge)
        start = self.end([sender], endpoint, lambda cap: "w" in cap[3] and cap[2] == badge, lambda sent: sent == badge)
        end = self.end(numbers(other), endpoint, lambda cap: "r" in cap[3], lambda sent: sent is None)
        return (start if numbers(one) else loader), (end if numbers(other) else loader)

    def grant(self, one, endpoint, other):
        """The ends of what is handed over: by a message, or else by an answer."""
        start = self.end([one], endpoint, lambda cap: {"w", "g"} <= set(cap[3]), lambda sent: False)
        end = self.end([other], endpoint, lambda cap: "r" in cap[3], lambda sent: sent is None)
        if start and end:
            return start, end
        return (self.end([one], endpoint, lambda cap: {"r", "g"} <= set(cap[3]), lambda sent: False),
                self.end([other], endpoint, lambda cap: "w" in cap[3] and {"g", "p"} & set(cap[3]), lambda sent: False))

    def take(self, one, other):
        """The first slot of the one part that stands below one of the other, and the nearest of these."""
        for slot in (it for it in self.caps if self.part[it] == other):
            above = self.kernel.above[slot]
            while above is not None and self.part[above] != one:
                above = self.kernel.above[above]
            if above is not None:
                (text, notes), (up, more) = self.slot_text(slot), self.slot_text(above)
                return f"{text} under {up}", notes + [(call, f"below {self.slot_name(above)}, which call {call} fills") for call, _ in more]
        return None

    def place(self, it):
        """What stands in one line below a breach."""
        if it["kind"]:
            just = ("endpoint", self.address(it["endpoint"]), 0 if it["badge"] == "any" else int(it["badge"]), it["rights"])
            return self.first_slot([int(it["part"])], lambda cap: cap == just)
        if it["region"]:
            return self.first_slot([int(it["region"])], lambda cap: cap == ("untyped", self.address(it["base"]), int(it["bits"])))
        if it["hold"]:
            held = self.address(it["held"])
            return self.first_slot([int(it["hold"])], lambda cap: cap == ("tcb", held) or self.around(held)(cap))
        if it["by_part"]:
            return self.take(int(it["by_part"]), int(it["of_part"]))
        return self.thread_text(self.address(it["sends"] or it["receives"]))

    def wanted(self, breach):
        """The lines below that of a breach, and what its notes say: each with its call."""
        it = breach.groupdict()
        if not it["one"] and not it["gives"]:
            text, notes = self.place(it) or ("none", [])
            return [f"  {text}"], notes
        badge = 0 if it["with"] in (None, "any") else int(it["with"])
        ends = self.way(it["one"], self.address(it["by"]), badge, it["other"]) if it["one"] else \
            self.grant(int(it["gives"]), self.address(it["over"]), int(it["gets"]))
        both = [(role, *(found or ("none", []))) for role, found in zip(("from", "to"), ends)]
        return [f"  {role} {text}" for role, text, _ in both], [(call, f"{role}: {said}") for role, _, notes in both for call, said in notes]

    def other_state(self):
        """The slots that `check` lists and the model has not, or the other way round."""
        report = run(self.program, "check", "-", text=cut(self.drawn, self.made))[1]
        shown = {"cnode": "cnode {1} radix {2} guard 0 size {3}", "tcb": "tcb {1}", "endpoint": "endpoint {1} badge {2} rights {3}"}
        mine = {slot: shown[cap[0]].format(*cap) for slot, cap in self.caps.items() if cap[0] in shown}
        theirs = {slot: cap for slot, cap in parts.held(report).items() if not cap.startswith("untyped ")}
        return sorted(mine.items() ^ theirs.items())

    def found(self):
        """How many lines there are below breaches, by their words, and what is wrong."""
        if other := self.other_state():
            return {}, [f"{self.seed}: the model has other slots than `check`: {other}"]
        self.setup.write_text(self.drawn.text)
        self.policy.write_text(self.policy_text())
        status, told, error = answer(self.program, "policy", str(self.policy), str(self.setup))
        lines, count, faults, notes = told.splitlines(), {}, [], []
        if status > 1:
            return {}, [f"{self.seed}: status {status}: {told}{error}"]
        for n, line in enumerate(lines):
            breach = BREACH.fullmatch(re.sub(r" allowed \S+$", "", line))
            below = list(itertools.takewhile(lambda it: it.startswith("  "), lines[n + 1:]))
            wanted, more = self.wanted(breach) if breach else ([], [])
            if not line.startswith("  ") and below != wanted:
                faults.append(f"{self.seed}: {line}: below it stands {below}, and not {wanted}")
            if line.startswith("breach "):
                notes.append(more)
            if breach:
                kind = line.split()[1]
                count[kind] = count.get(kind, 0) + len(wanted)
        return count, faults + list(self.note_faults(error, notes))

    def notes_at(self, call, said):
        """What a note says of a call, and below it that of the layout, if comments name it and its line."""
        line, column = self.drawn.at[call - 1]
        yield f"{self.setup}:{line}:{column}: note: {said}"
        if self.drawn.layout and call in self.drawn.origin:
            yield "%s:%d:1: note: %s" % (self.drawn.layout, *self.drawn.origin[call])

    def note_faults(self, error, notes):
        """What is wrong with the notes on standard error, below the errors of the first breaches."""
        wanted = []
        for more in notes[:MOST_ERRORS]:
            wanted += ["error", *(line for call, said in more for line in self.notes_at(call, said))]
        lines = [line for line in error.splitlines() if ": warning: " not in line and not line.startswith("sel4sim: ")]
        told = ["error" if f"{self.policy}:" in line else line for line in lines]
        if told != wanted:
            yield f"{self.seed}: standard error has {told}, and not {wanted}"


def cut(drawn, made):
    """The text of a set-up with the first calls alone."""
    first = drawn.at[made][0] if made < len(drawn.at) else None
    return drawn.text if first is None else "\n".join(drawn.text.splitlines()[: first - 1]) + ("\n]\n" if "call = [" in drawn.text else "\n")


def numbers(label):
    """The parts of a label of groups; none of the loader's."""
    return [int(it[1:]) for it in label.split("+")] if re.match(r"g\d", label) else []


def main():
    program, seed, count = str(pathlib.Path(sys.argv[1]).absolute()), int(sys.argv[2]), int(sys.argv[3])
    with tempfile.TemporaryDirectory() as folder:
        found = side_by_side(lambda one: Places(program, one, folder).found(), range(seed, seed + count))
    faults = [fault for _, wrong in found for fault in wrong]
    kinds = {}
    for counted, _ in found:
        for kind, lines in counted.items():
            kinds[kind] = kinds.get(kind, 0) + lines
    told = ", ".join(f"{kind} {n}" for kind, n in sorted(kinds.items()))
    print("\n".join([*faults[:5], f"{count} set-ups, {len(faults)} faults, lines below: {told}"]))
    return 1 if faults or len(kinds) < 7 else 0


if __name__ == "__main__":
    sys.exit(main())
