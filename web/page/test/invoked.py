"""The table of what each thread can invoke: read from a page, and rebuilt cell by cell from the state of the replay."""
import re

from replay import KINDS, Walks, slot_of_word, slots_of

# An expression of the script that reads a page.
READ_TABLE = r"""(() => {
    const texts = (around, wanted) => [...around.querySelectorAll(wanted)].map((found) => found.textContent);
    const cell = (td) => ({
      ways: [...td.querySelectorAll(".way")].map((way) => [texts(way, ".by b"), texts(way, ".what")[0]]),
      copies: [...td.querySelectorAll(".copy")].map((copy) => [copy.dataset.from, texts(copy, ".what")[0]]),
      given: [...td.querySelectorAll(".given")].map((given) => [given.dataset.given, texts(given, ".what")[0]]),
      text: td.textContent,
    });
    return [...document.querySelectorAll("#reach table")].map((table) => ({
      columns: [...table.querySelectorAll("th[data-threads]")].map((head) => [head.dataset.threads, head.textContent]),
      rows: [...table.querySelectorAll("tbody tr")].map((row) => [row.dataset.row, row.querySelector("th").textContent,
        [...row.querySelectorAll("td")].map(cell)]),
    }));
  })()"""


class Sight:
    """What a thread can invoke: slots by object and text; and what a copy or move would give besides: by object and
    text, the CNodes that it can be taken from."""

    def __init__(self, walks, thread):
        slots = walks.slots
        self.ways, self.copies = {}, {}
        for address in walks.invoked(thread):
            slot = slots[address]
            self.ways.setdefault((slot.object, slot.whole_details()), set()).add(address)
        nodes = [slots[address] for addresses in self.ways.values() for address in addresses
                 if slots[address].kind == "cnode"]
        for node in nodes:
            for slot in map(slots.get, walks.named_from(node)):
                key = (slot.object, slot.whole_details())
                if key not in self.ways:
                    self.copies.setdefault(key, set()).add(node.base)

    @property
    def objects(self):
        return {thing for thing, _ in [*self.ways, *self.copies]}


def slots_by_words(words, thread, slots, profile):
    """The slots that words lead to, whatever the other bits are of a word of which the first bits alone count; `3/9` is
    one of 9 bits."""
    bits = 64 if profile == "wide" else 32
    for word in words:
        text, _, count = word.partition("/")
        first = int(text, 0)
        for value in {first, first | (1 << bits - int(count or bits)) - 1}:
            yield slot_of_word(slots, thread, value, profile)


def copies_in(cell, thing):
    """The copies and moves that a cell tells: of each, the CNodes that it can be taken from."""
    return {(thing, text): set(map(int, nodes.split(", "))) for nodes, text in cell["copies"]}


def wrong_copies(told, sight, is_audited):
    """The cells of a column tell each capability that a copy or move would give besides, with the CNodes that it can be taken
    from: with all of them, or, where an audit says it, with some."""
    if told.keys() != sight.copies.keys():
        yield f"a copy or move is told to give {sorted(told)}, and it gives {sorted(sight.copies)}"
    for key in told.keys() & sight.copies.keys():
        if not told[key] or not told[key] <= sight.copies[key] or not is_audited and told[key] != sight.copies[key]:
            yield f"{key} is told to be taken from {told[key]}, and can be from {sight.copies[key]}"


def wrong_cell(cell, thing, sight, told_copies, thread, slots, profile):
    """A cell has a line for each capability of its object that the thread can invoke, with a word for each slot that
    holds it; and, of a CNode, all that a copy or move from it is told to give."""
    if len({text for _, text in cell["ways"]}) != len(cell["ways"]):
        yield f"a capability stands in two lines: {cell['text']!r}"
    told = {(thing, text): set(slots_by_words(words, thread, slots, profile)) for words, text in cell["ways"]}
    wanted = {key: addresses for key, addresses in sight.ways.items() if key[0] == thing}
    if told != wanted or sum(len(words) for words, _ in cell["ways"]) != sum(map(len, wanted.values())):
        yield f"the cell says {cell['text']!r}, and it can invoke {wanted}"
    from_it = sorted(key for key, nodes in told_copies.items() if thing in {f"cnode {base}" for base in nodes})
    if sorted(map(tuple, cell["given"])) != from_it:
        yield f"the cell says {cell['text']!r}, and a copy or move from it gives {from_it}"
    if not any(cell[part] for part in ("ways", "copies", "given")) and cell["text"] != "–":
        yield f"a cell of nothing says {cell['text']!r}"


def wrong_columns(columns, replay, threads):
    """Each thread has one column, and stands in its head with its names."""
    told = sorted(int(thread) for shown, _ in columns for thread in shown.split(" "))
    if told != sorted(threads):
        yield f"the table has columns for {told}"
    for shown, head in columns:
        for thread in shown.split(" "):
            names = ", ".join(replay.names.get(int(thread), [])[:3])
            if f"{thread} {names}".rstrip() not in head:
                yield f"the head {head!r} has no {thread} {names}"


def told_in(rows, place):
    """What the cells of a column tell of copies and moves."""
    told = {}
    for thing, _, cells in rows:
        told.update(copies_in(cells[place], thing))
    return told


def wrong_channels(titles, replay, state):
    """Between two threads there is a line for each word by which the one may send to an endpoint, and the other may receive;
    words are not compared."""
    slots = slots_of(state)
    walks = Walks(slots, replay.profile)
    threads = [address for kind, address in state if KINDS[kind] == "thread"]
    ends = {thread: [slots[address] for address in walks.invoked(thread) if slots[address].kind == "endpoint"] for thread in threads}
    rights = {slot.address: slot.words[slot.words.index("rights") + 1] for slots_of_one in ends.values() for slot in slots_of_one}
    wanted = [(one, slot.base, slot.number("badge"), rights[slot.address], other) for one in threads for other in threads
              for slot in ends[one] if one != other and "w" in rights[slot.address]
              and any(slot.base == end.base and "r" in rights[end.address] for end in ends[other])]
    forms = [re.fullmatch(r"(\d+)(?: @\w+)?: (\d+) badge (\d+) ([-wrgp]{4}) by \d+ → (\d+)(?: @\w+)?", title) for title in titles]
    told = [(*map(int, form.group(1, 2, 3)), form[4], int(form[5])) for form in forms if form]
    if sorted(told) != sorted(wanted) or len(told) != len(titles):
        yield f"it draws the ways {titles}, and there are {sorted(wanted)}"


def wrong_table(tables, replay, state, is_audited):
    """The table has a column for each thread and a row for each object that some thread can invoke, or could by a copy
    or move, and each of its cells is that of the replay for all threads of its column."""
    slots = slots_of(state)
    walks, profile = Walks(slots, replay.profile), replay.profile
    threads = [address for kind, address in state if KINDS[kind] == "thread"]
    sights = {thread: Sight(walks, thread) for thread in threads}
    objects = set().union(*(sight.objects for sight in sights.values()))
    rows = [row for table in tables for row in table["rows"]]
    if sorted(thing for thing, _, _ in rows) != sorted(objects):
        yield f"the table has rows for {[thing for thing, _, _ in rows]}, and not {sorted(objects)}"
    for table in tables if threads else ():
        yield from wrong_columns(table["columns"], replay, threads)
    columns = [list(map(int, column.split(" "))) for column, _ in tables[0]["columns"]] if tables else []
    told = [told_in(rows, place) for place in range(len(columns))]
    for copies, column in zip(told, columns, strict=True):
        for thread in column:
            yield from wrong_copies(copies, sights[thread], is_audited)
    for thing, head, cells in rows:
        if re.search(r" (\d+)", thing)[1] not in head:
            yield f"the row of {thing} is called {head!r}"
        for copies, column, cell in zip(told, columns, cells, strict=True):
            for thread in column:
                yield from wrong_cell(cell, thing, sights[thread], copies, thread, slots, profile)
