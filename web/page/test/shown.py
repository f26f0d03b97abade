"""What a page shows, read from its elements, and what is wrong with it beside the state that the replay has."""
import re

from collections import Counter

from invoked import READ_TABLE, wrong_channels, wrong_table
from replay import KINDS, lost_nodes, siblings_of, slot_of_index, slot_of_word, slots_of

# Looks whether the forest was scrolled to what changed; opens what is folded, until nothing is, and reads the page.
READ = r"""
(async () => {
  const box = (element) => element?.getBoundingClientRect();
  const forest = box(document.querySelector(".forest-scroll"));
  const first = box(document.querySelector("#forest .node:is(.filled, .emptied, .altered, .moved)")
    ?? document.querySelector("#forest .node.named"));
  const inSight = !first || (first.top >= forest.top && first.bottom <= forest.bottom);
  const closed = () => [...document.querySelectorAll("details.fold:not([open])")];
  while (closed().length > 0) {
    for (const folded of closed()) folded.open = true;
    await new Promise((done) => setTimeout(done, 5));
  }
  const all = (wanted, read) => [...document.querySelectorAll(wanted)].map(read);
  const text = (id) => document.getElementById(id).textContent;
  const around = (element) => element.parentElement.closest("li[data-slot]")?.dataset.slot ?? null;
  return {
    inSight, title: document.title, table: """ + READ_TABLE + r""",
    audited: document.getElementById("reach").textContent.includes("which is proved"),
    channels: all("#channels .wire title", (it) => it.textContent),
    reasons: all("#said .reasons > li", (reason) => reason.textContent),
    ways: all("#said .lookup", (row) => [row.getAttribute("aria-label"), row.querySelector(".end b")?.title ?? null,
      [...row.querySelectorAll(".bits")].map((part) => [part.classList[1], part.dataset.bits])]),
    names: all("#sentence .name", (name) => name.textContent), changed: text("changed"),
    nodes: all("#spaces h3[data-node]", (node) => [Number(node.dataset.node), node.textContent]),
    state: text("state-text"), step: text("step-text"), position: text("position"), sentence: text("said"),
    everything: document.getElementById("run").textContent,
    forest: all("#forest li[data-slot]", (row) => [Number(row.dataset.slot), around(row) && Number(around(row)),
      row.dataset.mark ?? "", row.firstElementChild.textContent, row.parentElement.closest("li")?.dataset.key ?? ""]),
    threads: all(".threads > li[data-thread]", (row) => [Number(row.dataset.thread), row.textContent]),
    endpoints: all(".endpoints > li[data-endpoint]", (row) => [Number(row.dataset.endpoint), row.dataset.state,
      [...row.querySelectorAll("ol.queue > li")].map((waiter) => Number(waiter.dataset.thread))]),
    words: [...all("#spaces li.cell:not(.emptied, .moved) > .word", (word) => [word.parentElement.title, word.title]),
      ...all("#spaces li.cell.own", (cell) => [cell.title, cell.querySelector("b").textContent])],
    far: all("#spaces li.cell.far", (cell) => cell.title),
    seer: Number(document.getElementById("seer")?.value ?? 0),
    wide: document.documentElement.scrollWidth > window.innerWidth,
    current: all(".call.current", (row) => [Number(row.dataset.number), row.textContent]),
    gists: all(".call.current .title", (title) => title.title),
    sums: all("#changed li[data-sum]", (row) => [Number(row.dataset.sum), row.textContent]),
    marked: all(":is(#forest .node, #spaces .cell):is(.filled, .emptied, .altered, .moved)", (it) => it.textContent),
  };
})()
"""

CALL = re.compile(r"(\d+) (\d+) (\w+): (.*?)(?: \[(met|not met: .*)\])?")
NOT_WORDS = ("undefined", "NaN", "[object", "null")
MOST_WORDS_TRIED = 1024


def lines_of(state, kind):
    """The lines of a kind by their addresses."""
    return {address: line for (place, address), line in state.items() if KINDS[place] == kind}


def marks_of(step):
    """How the page has to mark each slot that a step changed."""
    old, new = (lines_of(lines, "slot") for lines in step.changes)
    marks = {address: "altered" if address in old else "filled" for address in new}
    gone = [address for address in old if address not in new]
    verb = step.lines[0].split(" ")[2].rstrip(":") if len(step.lines[0].split(" ")) > 2 else ""
    moved = verb in ("move", "mutate") and len(gone) == 1 and list(marks.values()).count("filled") == 1
    return marks, {address: "moved" if moved else "emptied" for address in gone}


def wrong_sentence(shown, step, number):
    """What is said of a call has its thread, its reply, whether it was expected, why it is refused, and how much it changed;
    the list of calls has the operation and the reply."""
    if number == 0:
        return
    _, thread, operation, reply, expected = CALL.fullmatch(step.lines[0]).groups()
    marks, gone = marks_of(step)
    moved = "moved" in gone.values()
    counts = [(0 if moved else len(gone), "emptied"), (0 if moved else list(marks.values()).count("filled"), "filled"),
              (list(marks.values()).count("altered"), "altered")]
    wanted = [f"{number} · thread {thread}", reply]
    wanted += [f"{count} slot{'s' * (count > 1)} {verb}" for count, verb in counts if count]
    wanted += ["Nothing changed."] * (not step.gone and not step.come)
    wanted += ["as expected" if expected == "met" else f"✗ {expected}"] * bool(expected)
    for text in wanted:
        if text not in shown["sentence"]:
            yield f"{text!r} is not in {shown['sentence']!r}"
    if shown["reasons"] != step.reasons:
        yield f"the reasons are {shown['reasons']}, and not {step.reasons}"
    for text in (operation, reply):
        if not any(text in row for _, row in shown["current"]):
            yield f"{text!r} is not in the list: {shown['current']}"


def wrong_forest(shown, state, step, number, word_bits):
    """The forest has a row for each full slot, below the one that it is derived from, and one for each emptied slot."""
    marks, gone = marks_of(step) if number else ({}, {})
    slots = slots_of(state)
    standing = {row[0]: row for row in shown if row[2] not in ("emptied", "moved")}
    left = {row[0]: row[2] for row in shown if row[2] in ("emptied", "moved")}
    if sorted(standing) != sorted(slots) or len(shown) != len(slots) + len(gone):
        yield f"the forest has the slots {sorted(standing)}"
    if left != gone:
        yield f"the forest marks {left} as emptied or moved, and not {gone}"
    for address, (_, under, mark, text, _) in standing.items():
        slot = slots.get(address)
        if slot is None:
            continue
        if under != slot.under:
            yield f"slot {address} stands below {under}"
        if mark != marks.get(address, ""):
            yield f"slot {address} is marked {mark!r}, and not {marks.get(address, '')!r}"
        if str(slot.base) not in text or slot.details(word_bits) not in text or slot.original != ("◆" in text):
            yield f"slot {address} is told as {text!r}"


def wrong_order(shown, state):
    """Siblings stand in the kernel's order: those in sight, and those that are folded away together."""
    wanted = {address: place for row in siblings_of(state).values() for place, address in enumerate(row)}
    rows = {}
    for address, under, mark, _, around in shown:
        if mark not in ("emptied", "moved"):
            rows.setdefault((under, around), []).append(address)
    for (under, _), row in rows.items():
        if row != sorted(row, key=lambda address: wanted.get(address, -1)):
            yield f"below {under} stand {row}, and not {sorted(row, key=lambda address: wanted.get(address, -1))}"


def wrong_threads(shown, state):
    """Each thread is there with its state and its inbox, each endpoint that is not idle with its queue in order."""
    threads, inboxes = lines_of(state, "thread"), lines_of(state, "inbox")
    if sorted(address for address, _ in shown["threads"]) != sorted(threads):
        yield f"the threads are {shown['threads']}"
    for address, text in shown["threads"]:
        words = threads.get(address, "  ").split(" ")
        inbox = f"badge {inboxes[address].split(' ')[3]} " if address in inboxes else ""
        if " ".join(words[2:4] if "ing" in words[2] else words[2:3]) not in text or inbox not in text:
            yield f"thread {address} is told as {text!r}"
    endpoints = {address: line.split(" ") for address, line in lines_of(state, "endpoint").items()}
    for address, told, queue in shown["endpoints"]:
        words = endpoints.get(address, ["", "", "none"])
        if [words[2], *words[3:]] != [told, *map(str, queue)]:
            yield f"endpoint {address} is told as {told} {queue}"
    seen = {address for address, _, _ in shown["endpoints"]}
    for address, words in endpoints.items():
        if address not in seen and (words[2] != "idle" or len(endpoints) < 9):
            yield f"endpoint {address} is missing"


def wrong_words(shown, state, profile):
    """Each word that the page gives for a slot leads there, whatever its other bits are; and no word that is tried
    leads to a slot that the page calls out of reach."""
    bits = 64 if profile == "wide" else 32
    slots = slots_of(state)
    address_of = {title: int(title.split(" ")[-1]) for title, _ in shown["words"]}
    address_of.update({title: int(title.split(" ")[-1]) for title in shown["far"]})
    for title, word in shown["words"]:
        text, _, count = word.partition("/")
        first = int(text, 0)
        for value in (first, first | ((1 << (bits - int(count or bits))) - 1)):
            if slot_of_word(slots, shown["seer"], value, profile) != address_of[title]:
                yield f"the word {word} does not lead thread {shown['seer']} to the {title}"
    far = {address_of[title] for title in shown["far"]}
    for value in [*range(MOST_WORDS_TRIED), *(value << (bits - 10) for value in range(MOST_WORDS_TRIED))]:
        if slot_of_word(slots, shown["seer"], value, profile) in far:
            yield f"the word {value} leads to a slot that is called out of reach"


def slots_named(replay, number):
    """The words of a call that its sentence has, each with the slot that it led to before the call, or None. A thread that is not ready looks
    nothing up."""
    words, slots = replay.words(number), slots_of(replay.states[number - 1])
    _, thread, operation, *_ = CALL.fullmatch(replay.steps[number].lines[0]).groups()
    is_ready = lines_of(replay.states[number - 1], "thread").get(int(thread)) == f"thread {thread} ready"

    def by_word(word):
        return slot_of_word(slots, int(thread), words[word], replay.profile) if is_ready else None

    def by_index(root, index, depth):
        return slot_of_index(slots, slots.get(by_word(root)), words[index], words[depth], replay.profile)

    if "index" not in words or operation == "retype":
        return [(words["cap"], by_word("cap"))]
    target = (words["index"], by_index("cap", "index", "depth"))
    source = (words["src_index"], by_index("src_root", "src_index", "src_depth")) if "src_index" in words else None
    return [target, source] if source else [target]


def wrong_names(shown, replay, number):
    """The sentence has the name of a word just where the word led to a slot of the root CNode, and has one name."""
    if number == 0:
        return
    before = slots_of(replay.states[number - 1]).values()
    ends = [slot.number("radix") for slot in before if slot.kind == "cnode" and slot.base == 0]
    end = 1 << ends[0] << (5 if replay.profile == "wide" else 4) if ends else 0
    wanted = [replay.names[word][0] for word, slot in slots_named(replay, number)
              if slot is not None and slot < end and len(replay.names.get(word, ())) == 1]
    if sorted(shown) != sorted(wanted):
        yield f"the sentence has the names {shown}, and not {wanted}"


def place_of(slots, address, profile):
    """How a slot is called by the CNode that it lies in, and that CNode's address; or None."""
    width = 5 if profile == "wide" else 4
    for slot in slots.values():
        if slot.kind == "cnode" and 0 <= address - slot.base < 1 << slot.number("radix") + width:
            return f"{slot.base or 'root'}[{(address - slot.base) >> width}]", slot.base
    return None


WAY = re.compile(r"The way of (\w+) (\d+), in bits")


def wrong_ways(shown, replay, number):
    """The way of a word has the bits that are looked up, from the first one on, and ends at the slot that the word leads to."""
    words, slots, step = replay.words(number) if number else {}, slots_of(replay.states[number - 1]), replay.steps[number]
    thread = CALL.fullmatch(step.lines[0])[2] if number else "0"
    for label, end, parts in shown:
        name, word = WAY.fullmatch(label).groups()
        depth = int(words.get({"index": "depth", "src_index": "src_depth"}.get(name, ""), 64 if replay.profile == "wide" else 32))
        if name in ("cap", "root"):
            slot = slot_of_word(slots, int(thread), int(word), replay.profile)
        else:
            start = slot_of_word(slots, int(thread), words["src_root" if name == "src_index" else "root" if "root" in words else "cap"], replay.profile)
            slot = slot_of_index(slots, slots.get(start), int(word), depth, replay.profile)
        bits = "".join(part for _, part in parts)
        whole = f"{int(word) % (1 << depth):0{depth}b}"
        if word != str(words[name]) or not whole.startswith(bits) or slot is None and bits != whole:
            yield f"the way of {name} {word} has the bits {bits}, and not {whole}"
        if end != (None if slot is None else f"slot at address {slot}"):
            yield f"the way of {name} {word} ends at {end}, and not at {slot}"
        if (slot is None) != any(look == "refused-bits" for look, _ in parts):
            yield f"the way of {name} {word} is drawn as {parts}, and leads to {slot}"


def wrong_gist(shown, replay, number):
    """The list has an index as the call has it, but where it led to a slot of another CNode than the root one: there it
    has the slot's place."""
    words = replay.words(number) if number else {}
    if "index" not in words or "count" in words:
        return
    before = slots_of(replay.states[number - 1])
    told = []
    for word, slot in slots_named(replay, number):
        place, base = place_of(before, slot, replay.profile) if slot is not None else (word, 0)
        told.append(place if base else str(word))
    wanted = " → ".join(reversed(told))
    if [title.split(" ", 2)[2] for title in shown] != [wanted]:
        yield f"the list has {shown}, and not {wanted!r}"


def sums_of(gone, slots):
    """How many slots each sum of a step counts that emptied many: by subtree, or of many by object and badge."""
    def top(address):
        return top(slots[address].under) if slots[address].under in gone else address

    trees = Counter(map(top, gone))
    if len(trees) <= 12:
        return trees.values()
    badges = Counter((slots[it].object, slots[it].kind == "endpoint" and slots[it].number("badge")) for it in gone)
    return badges.values()


def wrong_sums(shown, replay, number):
    """Where a step emptied many slots, it is told how many of each subtree or badge."""
    gone = marks_of(replay.steps[number])[1] if number else {}
    wanted = sums_of(gone, slots_of(replay.states[number - 1])) if len(gone) > 8 else ()
    if len(wanted) <= 24 and sorted(count for count, _ in shown) != sorted(wanted):
        yield f"the sums of what was emptied are {shown}, and not {sorted(wanted)}"


def wrong_losses(shown, replay, number):
    """CNodes that no thread leads to are marked, with those in a circle with them, and are told when they are lost; and
    where the last capability of an untyped region goes, it is told whether something that was made of it stays."""
    state, lost = replay.states[number], lost_nodes(replay.states[number], replay.profile)
    for base, text in shown["nodes"]:
        circle = f"held in a circle with {', '.join(map(str, lost.get(base, ())))}"
        marks = {"no thread leads here": base in lost, circle: bool(lost.get(base)),
                 "held only by its own slots": base in lines_of(state, "selfheld")}
        for mark, wanted in marks.items():
            if wanted != (mark in text):
                yield f"CNode {base} is told as {text!r}; lost are {lost}"
    if number == 0:
        return
    already = lost_nodes(replay.states[number - 1], replay.profile)
    for base, circle in lost.items():
        told = f"CNodes {', '.join(map(str, sorted([base, *circle])))} hold one another"
        if circle and base not in already and told not in shown["changed"]:
            yield f"{told!r} is not told: {shown['changed']!r}"
    yield from wrong_untypeds(shown["changed"], replay, number)


def wrong_untypeds(changed, replay, number):
    """What is said of the untyped regions whose last capability goes at a step."""
    before, after = (slots_of(replay.states[place]).values() for place in (number - 1, number))
    held = {slot.object for slot in after}
    gone = {slot.object: slot for slot in before if slot.kind == "untyped" and slot.object not in held}
    for slot in gone.values() if len(gone) < 12 else ():
        stays = any(slot.base <= other.base < slot.base + slot.size and not (
            other.kind == "untyped" and other.size > slot.size) for other in after)
        told = f"capability of untyped {slot.base} ({slot.size} B) gone"
        if told not in changed or stays != (f"{told}; what was made of it stays" in changed):
            yield f"{told!r} and {stays} are not told: {changed!r}"


def wrong_page(shown, replay, number):
    """What is wrong with what a page shows behind a step."""
    profile, step, state, count = replay.profile, replay.steps[number], replay.states[number], replay.last
    if shown["state"] != "\n".join(state.values()):
        yield f"the state is\n{shown['state']}"
    if shown["step"] != "\n".join(step.lines):
        yield f"the step is\n{shown['step']}"
    position = f"call {number} of {count}" if number else f"boot, {count} calls"
    if shown["position"] != position or [row[0] for row in shown["current"]] != [number]:
        yield f"the position is {shown['position']!r}, and {shown['current']} is marked"
    for word in NOT_WORDS:
        if word in shown["everything"]:
            place = shown["everything"].index(word)
            yield f"{word} stands in the page: {shown['everything'][max(0, place - 40):place + 40]!r}"
    if shown["wide"]:
        yield "the page is wider than its window"
    yield from wrong_sentence(shown, step, number)
    yield from wrong_forest(shown["forest"], state, step, number, 64 if profile == "wide" else 32)
    yield from wrong_order(shown["forest"], state)
    yield from wrong_threads(shown, state)
    yield from wrong_words(shown, state, profile)
    yield from wrong_table(shown["table"], replay, state, shown["audited"])
    if shown["audited"]:
        yield from wrong_channels(shown["channels"], replay, state)
    yield from wrong_names(shown["names"], replay, number)
    yield from wrong_losses(shown, replay, number)
    yield from wrong_gist(shown["gists"], replay, number)
    yield from wrong_ways(shown["ways"], replay, number)
    yield from wrong_sums(shown["sums"], replay, number)
    if not shown["inSight"]:
        yield "the forest is not scrolled to what changed"


def wrong_asked(shown, replay, number):
    """What is wrong with what a page shows of a call whose effect it hides: the state is the one before it."""
    _, thread, operation, reply, _ = CALL.fullmatch(replay.steps[number].lines[0]).groups()
    if shown["state"] != "\n".join(replay.states[number - 1].values()):
        yield f"the state is\n{shown['state']}"
    if shown["marked"] or shown["changed"] or shown["reasons"]:
        yield f"the effect is told: {shown['marked']} {shown['changed']} {shown['reasons']}"
    if f"{number} · thread {thread}" not in shown["sentence"] or "asks to" not in shown["sentence"]:
        yield f"the call is told as {shown['sentence']!r}"
    told = [shown["sentence"], shown["step"], *(row for _, row in shown["current"])]
    if any(text.endswith(reply) or f"{reply} " in text or "refused" in text for text in told):
        yield f"the reply {reply} is told: {told}"
    if [row[0] for row in shown["current"]] != [number] or operation not in shown["current"][0][1]:
        yield f"the list marks {shown['current']}"
