"""Reads a trace by itself, apart from the page: its names and steps, the state behind each, where words lead in a
state, and which CNodes no thread leads to."""
import bisect
import re

KINDS = ("thread", "inbox", "endpoint", "slot", "selfheld", "sibling")


def key_of(line):
    """The key of a state's line: its kind's place among the kinds, and its address."""
    kind, address = line.split(" ")[:2]
    return KINDS.index(kind), int(address)


class Step:
    """A call's lines as they stand in the trace, the lines that go and come, and those of the reason why it is refused."""

    def __init__(self, line):
        self.lines, self.gone, self.come, self.reasons = [line], [], [], []

    @property
    def changes(self):
        """The old and the new lines by their keys."""
        return {key_of(line): line for line in self.gone}, {key_of(line): line for line in self.come}


def steps_of(trace):
    """The steps of a trace, boot first."""
    steps = []
    for line in trace.splitlines():
        if re.match(r"[0-9]", line):
            steps.append(Step(line))
        elif line.startswith("  "):
            steps[-1].lines.append(line)
            if line.startswith("  - "):
                steps[-1].gone.append(line[4:])
            elif line.startswith("  + "):
                steps[-1].come.append(line[4:])
            elif not line.startswith(("  with", "  way ")):
                steps[-1].reasons.append(line[2:])
    return steps


def states_of(steps):
    """The state behind each step: lines by their keys."""
    states, state = [], {}
    for step in steps:
        state = dict(state)
        for line in step.gone:
            assert state.pop(key_of(line)) == line, f"{line} is taken away and does not stand there"
        for line in step.come:
            assert key_of(line) not in state, f"{line} comes where a line stands"
            state[key_of(line)] = line
        states.append(dict(sorted(state.items())))
    return states


def guard_in_words(guard, size):
    """A guard as the page tells it: its bits, or of a long one its value and its size."""
    return f"{guard:0{size}b}" * (size > 0) if size <= 12 else f"{guard} in {size} bits"


class Slot:
    """What a line of a slot says."""

    def __init__(self, line):
        words = line.split(" ")
        self.address, self.kind, self.base, self.words = int(words[1]), words[2], int(words[3]), words
        self.under = int(words[words.index("under") + 1]) if "under" in words else None
        self.original = words[-1] == "original"

    def number(self, key):
        return int(self.words[self.words.index(key) + 1])

    @property
    def object(self):
        """What tells the object apart: two untyped regions may begin at one address."""
        return f"{self.kind} {self.base}" + (f"/{self.number('bits')}" if self.kind == "untyped" else "")

    @property
    def size(self):
        """The bytes of an untyped region."""
        return 1 << self.number("bits")

    def whole_details(self):
        """All that tells the capability from others of its object."""
        if self.kind == "tcb":
            return "thread"
        if self.kind != "cnode":
            return self.details(0)
        size = self.number("size")
        return f"{1 << self.number('radix')} slots" + (f" guard {guard_in_words(self.number('guard'), size)}" if size else "")

    def details(self, word_bits):
        """What the page says of the capability behind its object's address."""
        if self.kind == "untyped":
            return f"{1 << self.number('bits')} B, used {self.number('free')}"
        if self.kind == "endpoint":
            badge = self.number("badge")
            return (f"badge {badge} " if badge else "") + self.words[self.words.index("rights") + 1]
        if self.kind == "tcb":
            return ""
        radix, guard, size = self.number("radix"), self.number("guard"), self.number("size")
        usual = guard == 0 and size in (0, word_bits - radix)
        return f"{1 << radix} slots" + ("" if usual else f" guard {guard_in_words(guard, size)}")


def slots_of(state):
    """The slots of a state by their addresses."""
    return {address: Slot(line) for (kind, address), line in state.items() if KINDS[kind] == "slot"}


def siblings_of(state):
    """The slots below each slot, and those below none under None, in the order that the lines of siblings tell."""
    behind = {}
    for (kind, address), line in state.items():
        if KINDS[kind] == "sibling":
            behind[int(line.split(" ")[3])] = address
    slots, ordered = slots_of(state), {}
    for address in sorted(set(slots) - set(behind.values())):
        row = ordered.setdefault(slots[address].under, [])
        assert not row, f"two siblings stand first below {slots[address].under}"
        while address is not None:
            row.append(address)
            address = behind.get(address)
    for under, row in ordered.items():
        assert all(slots[address].under == under for address in row), f"slots below {under} and others stand in one row"
    assert sorted(address for row in ordered.values() for address in row) == sorted(slots), "siblings stand in a ring"
    return ordered


def sizes_of(profile):
    """The bits of a word and of a slot's size."""
    return (64, 5) if profile == "wide" else (32, 4)


def resolve(slots, root, word, bits, profile):
    """The address of the slot that some bits of a word lead to from a capability, and how many bits are left, or None;
    by the rules of docs/behaviour.md."""
    left, slot = bits, root
    while slot is not None and slot.kind == "cnode":
        radix, guard, size = slot.number("radix"), slot.number("guard"), slot.number("size")
        if size + radix > left or word >> (left - size) & ((1 << size) - 1) != guard:
            return None
        left -= size + radix
        address = slot.base + ((word >> left & ((1 << radix) - 1)) << sizes_of(profile)[1])
        slot = slots.get(address)
        if left == 0 or slot is None or slot.kind != "cnode":
            return address, left
    return None


def slot_of_word(slots, thread, word, profile):
    """The address of the slot that a word leads to from a thread's root, or None."""
    found = resolve(slots, slots.get(thread), word, sizes_of(profile)[0], profile)
    return found and found[0]


def slot_of_index(slots, root, index, depth, profile):
    """The address of the slot that an index and a depth name from a CNode's capability, or None."""
    found = resolve(slots, root, index, depth, profile) if 0 < depth <= sizes_of(profile)[0] else None
    return found[0] if found and found[1] == 0 else None


class Walks:
    """Where all words of a state lead, level by level."""

    def __init__(self, slots, profile):
        self.slots, self.addresses = slots, sorted(slots)
        self.word_bits, self.slot_bits = sizes_of(profile)

    def inside(self, node):
        """The full slots of a CNode."""
        end = node.base + (1 << node.number("radix") << self.slot_bits)
        first, last = (bisect.bisect_left(self.addresses, address) for address in (node.base, end))
        return [self.slots[address] for address in self.addresses[first:last]]

    def levels(self, root):
        """Each full slot that bits lead to from a capability, with how many are left there: the slot may be one on the
        way."""
        todo, seen = [(root, self.word_bits)], set()
        while todo:
            node, bits = todo.pop()
            left = bits - node.number("size") - node.number("radix") if node.kind == "cnode" else -1
            for slot in self.inside(node) if left >= 0 else []:
                if (slot.address, left) not in seen:
                    seen.add((slot.address, left))
                    todo.append((slot, left))
        return seen

    def invoked(self, thread):
        """The addresses of the full slots that some word of a thread leads to: with bits left, a lookup goes on at a
        CNode."""
        root = self.slots.get(thread)
        return {address for address, left in (self.levels(root) if root else ())
                if left == 0 or self.slots[address].kind != "cnode"}

    def named_from(self, node):
        """The addresses of the full slots that some index and depth name from a CNode's capability."""
        return {address for address, _ in self.levels(node)}


def lost_nodes(state, profile):
    """The CNodes that no thread's root slot leads to through CNodes, each with the others in a circle with it."""
    slots = slots_of(state)
    walks = Walks(slots, profile)
    nodes = {slot.base: slot for slot in slots.values() if slot.kind == "cnode"}
    held = {base: {slot.base for slot in walks.inside(node) if slot.kind == "cnode"} for base, node in nodes.items()}

    def below(bases):
        found, todo = set(), list(bases)
        while todo:
            base = todo.pop()
            if base not in found:
                found.add(base)
                todo += held[base]
        return found

    threads = [address for kind, address in state if KINDS[kind] == "thread"]
    roots = [slots[thread].base for thread in threads if thread in slots and slots[thread].kind == "cnode"]
    lost = sorted(set(nodes) - below(roots))
    under = {base: below(held[base]) for base in lost}
    return {base: [other for other in lost if other != base and other in under[base] and base in under[other]]
            for base in lost}


class Replay:
    """A trace: its profile, the names of each word, its steps, and the state behind each."""

    def __init__(self, trace):
        self.profile = trace.splitlines()[0].split(" ")[2]
        self.names = {}
        for name, word in re.findall(r"^name (\w+) (\d+)$", trace, re.M):
            self.names.setdefault(int(word), []).append(name)
        self.steps = steps_of(trace)
        self.states = states_of(self.steps)
        self.last = len(self.steps) - 1

    def words(self, number):
        """The words of a call by their keys, without those of a message."""
        words = self.steps[number].lines[1].partition(" words")[0].split()[1:]
        return dict(zip(words[::2], map(int, words[1::2])))
