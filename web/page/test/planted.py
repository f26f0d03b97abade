"""Faults that are planted in the page's modules, one at a time: stepping through a set-up, or a further check, has to
find each of them."""
import shutil
import subprocess

import modes
import special

# What is wrong, the set-up that shows it, the module, the text that stands there once, and what is planted.
FAULTS = (
    ("threads share a column by their words alone", "five_components", "reach.mjs",
     "[...ways].map(([key, { words }]) => [key, words])", "[...ways].map(([, { words }]) => words)"),
    ("capabilities of one object are one line", "five_components", "reach.mjs",
     "  [object, badge, rights, guard, guardSize, free].join", "  [object].join"),
    ("a badge is left out", "five_components", "names.mjs",
     'return badge === "0" ? rights : `badge ${badge} ${rights}`', "return rights"),
    ("what a copy would give is left out", "five_components", "reach.mjs",
     "if (ways.has(key)) continue;", "continue;"),
    ("what an index names is left out of an audit", "cnode_in_cnode", "audits.mjs",
     "this.held.push({ from: this.slotOf.get(word), slot: Number(slot) });", ""),
    ("a channel to none is drawn to a thread", "five_components", "channels.mjs",
     "rights, to = null] = channel", "rights, to = '2048'] = channel"),
    ("a thread that is told as another one has no channels", "five_components", "channels.mjs",
     "[end, ...(spaces.get(end) ?? [])]", "[end]"),
    ("names are told wherever the number stands", "five_components", "names.mjs",
     "view.before.nodeAround(slot)?.base === 0", "true"),
    ("CNodes that hold one another are not marked", "cnodes_that_hold_one_another", "places.mjs",
     "const together = (one, other) => one !== other &&", "const together = (one, other) => one === other &&"),
    ("all CNodes count as reached", "cnodes_that_hold_one_another", "places.mjs",
     ".filter((base) => !reached.has(base))", ".filter(() => false)"),
    ("what was made of an untyped region counts as gone", "revoke_of_untyped", "summary.mjs",
     'view.after.slots.some(isInside) ? "; what was made of it stays" : ""', '""'),
    ("the forest is not scrolled", "five_components", "forest.mjs",
     "scroller.scrollTop += isAbove", "scroller.scrollLeft += isAbove"),
    ("siblings stand by their addresses", "five_components", "forest.mjs",
     "const inFront = (row) => lineOf(row)?.after ?? null", "const inFront = () => null"),
    ("a reason has its first line alone", "revoke_of_untyped", "summary.mjs",
     "step.reasons.map(", "step.reasons.slice(0, 1).map("),
    ("the sum of a subtree leaves its top out", "revoke_of_many", "sums.mjs",
     "return sum([top, ...below],", "return sum(below,"),
    ("badges are not told apart in a sum", "revoke_of_many", "sums.mjs",
     "`${line.capability.object}${badgeOf(line.capability)}`", "line.capability.object"),
    ("the list of calls has the index without its CNode", "cnode_in_cnode", "words.mjs",
     "? this.place(address) : word", "? word : word"),
    ("a call shows its effect at once though effects are hidden", "five_components", "page.mjs",
     "this.views.asked(wanted)", "this.views.of(wanted)"),
)

# The same of pages that have a trace and no audits.
FAULTS_OF_LOOKUPS = (
    ("a copy is taken from the first CNode alone", "cnode_in_cnode", "lookup.mjs",
     'if (inner.capability.kind === "cnode") walk(inner.capability, left);', ""),
    ("the way of a word lacks a bit", "cnode_in_cnode", "ways.mjs", 'drawBitBox("slot-bits", bits,', 'drawBitBox("slot-bits", bits.slice(1),'),
)

# The same for the further checks.
FURTHER_FAULTS = (
    ("the find box looks through the trace's lines alone", modes.found, "calls.mjs", ", ...told.texts]", "]"),
    ("the bar scrolls away on a phone", modes.phone, "style.css",
     "header { position: sticky;", "header { position: static;"),
    ("the forest is not alone", modes.forest_alone, "style.css",
     "body[data-alone] main > :not(#what, #what-if), .foot { display: none; }", ""),
    ("replies stand in the list though effects are hidden", modes.hidden_effects, "page.mjs",
     "this.isHiding ? number - Number(view.isAsked) : this.last", "this.last"),
)


def plant(page, folder, fault):
    """A copy of the page's folder with one fault in it."""
    said, _, module, old, new = fault
    copied = folder / said.replace(" ", "_")
    shutil.copytree(page, copied, ignore=shutil.ignore_patterns("out", "test"))
    path = copied / "source" / module
    text = path.read_text()
    assert text.count(old) == 1, f"{old} stands {text.count(old)} times in {module}"
    path.write_text(text.replace(old, new))
    subprocess.run([copied / "join.py"], check=True, timeout=600)
    return copied


def run(faults_of, page, setups, folder, faults):
    """Whether each planted fault is found: `faults_of` gives the faults of the page that a folder makes of a set-up."""
    missed = 0
    for fault in faults:
        if not faults_of(plant(page, folder, fault), setups / f"{fault[1]}.toml"):
            print(f"planted and not found: {fault[0]}")
            missed += 1
    print(f"{len(faults)} planted faults, {missed} not found")
    return missed == 0


def run_further(browser, page, folder):
    """Whether each planted fault is found by its check."""
    missed = 0
    for fault in FURTHER_FAULTS:
        special.make_run(plant(page, folder, fault), folder)
        if not list(fault[1](browser, page, folder)):
            print(f"planted and not found: {fault[0]}")
            missed += 1
    print(f"{len(FURTHER_FAULTS)} planted faults for the further checks, {missed} not found")
    return missed == 0
