"""What the drawings of the steps look like: what differs looks different, in both themes and at any size of a window."""
import json
import pathlib
import subprocess

from nothing_lost import FRAME, INSIDE, steps_come
from tester import TOP, pick

# The contrast of two colours, each as the browser tells it; of none with the one behind it, that is with itself.
CONTRAST = """
  const light = (colour) => { const [red, green, blue] = colour.match(/[\\d.]+/gu).map((it) => { const part = Number(it) / 255;
    return part <= 0.03928 ? part / 12.92 : ((part + 0.055) / 1.055) ** 2.4; }); return 0.2126 * red + 0.7152 * green + 0.0722 * blue; };
  const contrast = (one, other) => { const [dark, bright] = [light(one), light(other)].sort((a, b) => a - b); return (bright + 0.05) / (dark + 0.05); };
  const styleOf = (it, which) => it.ownerDocument.defaultView.getComputedStyle(it, which);
  const isSeen = (colour) => !/^rgba\\(.*, 0\\)$/u.test(colour) && colour !== "transparent";
  const groundOf = (it) => { let at = it; while (at && !isSeen(styleOf(at).backgroundColor)) at = at.parentElement; return styleOf(at).backgroundColor; };
  const inside = document.querySelector("#panel-steps iframe").contentDocument;
  const all = (wanted) => [...inside.querySelectorAll(wanted)];
"""
# For each kind of thing that is drawn, the least contrast of its edge with what it stands on.
EDGES = """(() => {""" + CONTRAST + """
  const edge = (it) => contrast(styleOf(it).borderTopColor, groundOf(it.parentElement));
  const least = (wanted, told = edge) => Math.min(...all(wanted).map(told));
  return {
    memory: least("#memory .box"), cells: least("#spaces .cell:not(.empty)"), bits: least(".bits"), threads: least(".threads > li"),
    endpoints: least(".endpoints > li"), bars: least(".bar", (it) => contrast(styleOf(it).outlineColor, groundOf(it.parentElement))),
    forest: least("#forest ul ul > li", (it) => contrast(styleOf(it, "::before").borderTopColor, groundOf(it))),
    stems: least("#forest ul ul", (it) => contrast(styleOf(it).borderLeftColor, groundOf(it))),
    changes: least(".changes li"), queues: least(".queue li"), table: least("#reach :is(th, td)"), controls: least("header :is(button, input:not([type=range])), select, .saver"),
    rings: least(":is(.node, .cell):is(.named, .on-way)", (it) => contrast(styleOf(it).boxShadow.match(/rgba?\\([^)]*\\)/u)[0], groundOf(it.parentElement))),
  };
})()"""
# The same of the drawings of who can send to whom, and of parts and ways; and of the controls of the page.
WIRES = """(() => {""" + CONTRAST.split("  const inside")[0] + """
  const least = (wanted, told) => Math.min(...[...document.querySelectorAll(wanted)].filter((it) => it.getClientRects().length > 0).map(told));
  const edge = (it) => contrast(styleOf(it).borderTopColor, groundOf(it.parentElement));
  return { boxes: least(".wire-box", (it) => contrast(styleOf(it).stroke, groundOf(it.closest(".drawing")))),
    wires: least(".wire path:not(.head)", (it) => contrast(styleOf(it).stroke, groundOf(it.closest(".drawing")))),
    heads: least(".wire :is(.head, circle)", (it) => contrast(styleOf(it).fill, groundOf(it.closest(".drawing")))),
    parts: least(".part, .thread", edge), controls: least("header :is(button, select, input:not([type=file]))", edge) };
})()"""
# How a cell looks: its border, and what it stands on.
LOOKS = """(() => {""" + CONTRAST + """
  const look = (wanted) => { const it = inside.querySelector(wanted); const { borderTopStyle, borderTopColor } = styleOf(it);
    return [isSeen(borderTopColor) ? borderTopStyle : "none", isSeen(borderTopColor) ? contrast(borderTopColor, groundOf(it.parentElement)) : 0]; };
  return { empty: look("#spaces .cell.empty"), far: look("#spaces .cell.far:not(.filled)"), near: look("#spaces .cell:not(.empty, .far)") };
})()"""


# Words with a contrast of less than 4.5 with what they stand on; of a document, or of the steps.
FAINT = """(() => {""" + CONTRAST.split("  const inside")[0] + """
  const isTold = (it) => [...it.childNodes].some((child) => child.nodeType === 3 && child.data.trim() !== "") && it.getClientRects().length > 0 && !it.closest(":disabled");
  return [...DOCUMENT.querySelectorAll("body *")].filter((it) => isTold(it) && contrast(styleOf(it).color, groundOf(it)) < 4.5)
    .map((it) => `${it.tagName.toLowerCase()}.${[...it.classList].join(".")} ${it.textContent.slice(0, 30)}`);
})()"""
SIZES_OF_WINDOWS = ((320, 256), (390, 844), (1280, 800), (1920, 1080))


def at_each_size(test, what, frame=FRAME):
    """Whatever is shown overruns no window, from a zoom of 400 % to a beamer, and its words can be read, light and dark."""
    browser, inside = test.browser, f"{frame}?.contentDocument"
    for width, height in SIZES_OF_WINDOWS:
        browser.resize(width, height)
        wide = browser.value(f"[document.documentElement.scrollWidth, {inside} ? {inside}.documentElement.scrollWidth - {frame}.clientWidth : 0]")
        test.wanted(wide[0] <= width and wide[1] <= 0, f"{what}: a window of {width} is overrun: {wide}")

        def look(theme, where=f"at {width}"):
            for document in ("document", inside):
                faint = browser.value(f"{document} ? {FAINT.replace('DOCUMENT', document)} : []")
                test.wanted(not faint, f"{what}, {where}, {theme}: these words are faint: {faint[:4]}")
        in_themes(test, look)
    browser.resize_back()


def at_call(test, topic, name, number):
    pick(test, topic, name)
    test.click("#tab-steps")
    test.settle()
    steps_come(test, name)
    test.browser.value(f"sel4sim.page.steps.go({number})")
    test.until(f"{INSIDE}.getElementById('range').value === '{number}'", f"{name} is not at call {number}")


def in_themes(test, check):
    for theme in ("light", "dark"):
        test.browser.call("Emulation.setEmulatedMedia", features=[{"name": "prefers-color-scheme", "value": theme}])
        check(theme)
    test.browser.call("Emulation.setEmulatedMedia", features=[])


def empty_and_far(test, _):
    """A slot that is empty has no border; one that no word of the thread leads to has a dashed one that can be seen; and the
    remark says that an index may lead there. Where a word is the slot's own number, it is told once."""
    at_call(test, "examples", "guarded_address_space", 4)

    def look(theme):
        looks = test.browser.value(LOOKS)
        test.wanted(looks["empty"][0] == "none" and looks["far"][0] == "dashed" and looks["near"][0] == "solid", f"{theme}: slots look as {looks}")
        test.wanted(looks["far"][1] >= 4.5, f"{theme}: the dashes have a contrast of {looks['far'][1]:.2f}")
    in_themes(test, look)
    remark = test.browser.value(f"{INSIDE}.querySelector('#spaces p.dim').textContent")
    test.wanted("dashed: no word of this thread leads there, though an index with a depth may" in remark, f"of the dashes is said {remark!r}")
    words = test.browser.value(f"[...{INSIDE}.querySelectorAll('#spaces .cell:not(.far, .empty)')].filter((it) => it.querySelector('b') !== null)"
                               ".map((it) => [it.querySelector('b').textContent, it.querySelector('.word')?.textContent ?? null])")
    test.wanted(all(word != f"→ {number}" for number, word in words), f"slots tell their number twice: {words}")


def contrast_of(test, measure, seen):
    """A check of each contrast that is measured, for a theme: what is drawn is noted in `seen`."""
    def look(theme):
        for what, contrast in test.browser.value(measure).items():
            seen.update([what] if contrast else [])
            test.wanted(contrast is None or contrast >= 3, f"{theme}: {what} have a contrast of {contrast and round(contrast, 2)}")
    return look


def contrasts(test, _):
    """Whatever is drawn has edges with a contrast of 3 or more, in both themes: in the steps, and who can send to whom; so have the controls."""
    seen = set()
    for name, number in (("guarded_address_space", 6), ("two_clients_by_badge", 5), ("revocation_of_badged_copies", 8)):
        at_call(test, "examples", name, number)
        test.browser.value(f"{INSIDE}.getElementById('reach-fold').open = true")
        in_themes(test, contrast_of(test, EDGES, seen))
    wires_of(test, "for audit", "engineers_system", "audit", seen)
    wanted = {"memory", "cells", "bits", "threads", "endpoints", "bars", "forest", "stems", "changes", "queues", "table", "controls", "rings", "boxes", "wires", "heads"}
    test.wanted(wanted <= seen, f"nothing is drawn of {sorted(wanted - seen)}")


def wires_of(test, topic, name, tab, seen):
    """The contrasts in a tab that has a drawing of boxes and lines."""
    pick(test, topic, name)
    test.click(f"#tab-{tab}")
    test.settle()
    in_themes(test, contrast_of(test, WIRES, seen))


def contrasts_of_parts(test, _):
    """So have the drawing of parts and ways, and the parts below it."""
    seen = set()
    wires_of(test, "for ever", "two_clients", "ever", seen)
    test.wanted({"parts", "boxes", "wires", "heads"} <= seen, f"of parts and ways {sorted(seen)} are drawn")


SIZES = f"""(() => {{
  const inside = {INSIDE};
  const size = (wanted) => {{ const it = inside.querySelector(wanted); return it && it.offsetParent !== null
    ? parseFloat(it.ownerDocument.defaultView.getComputedStyle(it).fontSize) : null; }};
  return {{ sentence: size("#sentence"), reason: size(".reasons"), tag: size("#said .tag"), heading: size("#forest h2"), legend: size(".foot") }};
}})()"""


def projected_sizes(test, _):
    """Alone in the whole window, the letters grow with it; reasons are as large as sentences, no letters are half as large, and the signs are
    told at the foot."""
    browser = test.browser
    at_call(test, "examples", "two_clients_by_badge", 7)
    browser.value("sel4sim.page.lecture.project(true)")
    browser.value(f"{INSIDE}.body.dataset.alone = 'forest'")
    found = []
    for width, height in ((960, 540), (1280, 800), (1920, 1080)):
        browser.resize(width, height)
        sizes = browser.value(SIZES)
        found.append(sizes["sentence"])
        test.wanted(sizes["reason"] == sizes["sentence"], f"at {width} a reason has {sizes['reason']} pixels, and a sentence {sizes['sentence']}")
        test.wanted(all((sizes[it] or 0) >= 0.55 * sizes["sentence"] for it in ("tag", "heading", "legend")), f"at {width} the sizes are {sizes}")
    test.wanted(found == sorted(set(found)) and found[-1] >= 2 * found[0] * 0.9, f"the sentences have {found} pixels")
    browser.value(f"delete {INSIDE}.body.dataset.alone")
    browser.resize_back()
    browser.value("sel4sim.page.lecture.project(false)")


def resized(test, _):
    """Where a window becomes lower, what a step changed is still in sight."""
    browser = test.browser
    at_call(test, "examples", "revocation_of_badged_copies", 8)
    browser.value(f"sel4sim.page.lecture.project(true), {INSIDE}.body.dataset.alone = 'forest'")
    seen = f"""(() => {{ const inside = {INSIDE}; const [window, first] = ["#forest .forest-scroll", "#forest .node:is(.filled, .emptied)"]
      .map((it) => inside.querySelector(it).getBoundingClientRect()); return first.top >= window.top && first.bottom <= window.bottom; }})()"""
    for height in (1000, 480, 700, 420):
        browser.resize(1280, height)
        test.wanted(browser.value(seen), f"at a height of {height} what changed is not in sight")
    browser.value(f"delete {INSIDE}.body.dataset.alone")
    browser.resize_back()
    browser.value("sel4sim.page.lecture.project(false)")


# For each word of the call: its boxes, as what they are and their bits, and the slots with a ring.
WAYS = f"""(() => {{
  const inside = {INSIDE};
  const rings = (look) => [...inside.querySelectorAll(`#forest .node.${{look}} b.code`)].filter((it) => it.title).map((it) => it.textContent);
  return {{ ways: [...inside.querySelectorAll("#said .lookup")].map((row) => [row.querySelector(".of-word").textContent,
      [...row.querySelectorAll(".bits")].map((it) => [it.classList[1], it.dataset.bits, it.querySelector("small").textContent]), row.querySelector(".end").textContent]),
    named: rings("named"), passed: rings("on-way"), isCut: inside.getElementById("said").scrollHeight > inside.getElementById("said").clientHeight + 1,
    reason: inside.querySelector(".reasons")?.getBoundingClientRect().height ?? null }};
}})()"""


def ways_in_bits(test, _):
    """The way of a word is drawn in bits, guard by guard and slot by slot, where it leads to a slot as where it fails; the slots on the way have a
    thin ring; the reason in words is heard where the boxes say the same, and seen elsewhere."""
    wanted = ((4, ["index 359", [["passed", "101", "guard, 3 bits"], ["slot-bits", "10", "slot 2 of 16384"], ["passed", "01", "guard, 2 bits"],
                                 ["slot-bits", "11", "slot 3 of 16512"]], "→ 16512[3]"], ["16384[2]"]),
              (6, ["index 363", [["passed", "101", "guard, 3 bits"], ["slot-bits", "10", "slot 2 of 16384"], ["refused-bits", "10", "guard is 01"],
                                 ["unread", "11", "not read"]], "✕ no slot"], ["16384[2]"]),
              (7, ["index 179", [["passed", "101", "guard, 3 bits"], ["slot-bits", "10", "slot 2 of 16384"], ["passed", "01", "guard, 2 bits"],
                                 ["refused-bits", "1", "slot needs 2"]], "✕ no slot"], ["16384[2]"]))
    for number, way, passed in wanted:
        at_call(test, "examples", "guarded_address_space", number)
        told = test.browser.value(WAYS)
        test.wanted(way in told["ways"], f"call {number}: the ways are {told['ways']}, and not {way}")
        test.wanted(told["passed"] == passed, f"call {number}: on the way are {told['passed']}")
        test.wanted(not told["isCut"], f"call {number}: the ways are cut")
        test.wanted(told["reason"] in (None, 1), f"call {number}: the reason stands beside the boxes")
    at_call(test, "examples", "two_clients_by_badge", 7)
    told = test.browser.value(WAYS)
    test.wanted(told["ways"] == [] and told["reason"] > 10, f"of a right that is missing {told} is shown")


# Those that are folded, when they are opened.
FOLDED = f"""(async () => {{
  const fold = {INSIDE}.querySelector("#changed > .fold");
  fold.open = true;
  await new Promise((done) => setTimeout(done, 50));
  return [fold.querySelector("summary").textContent, [...fold.querySelectorAll(".lookup")].map((row) => [...[...row.querySelectorAll(".bits")]
    .map((it) => [it.classList[1], it.dataset.bits]), row.querySelector(".end").textContent])];
}})()"""
ROOT_GUARD = 60 * "0"


def each_word_in_bits(test, _):
    """The words that lead through the root CNode alone are in bits as well, behind a fold; and an index of a retype, one of 64 bits of which some are left
    over, and one whose depth is out of range are drawn as the program reads them."""
    at_call(test, "examples", "guarded_address_space", 1)
    folded = test.browser.value(FOLDED)
    wanted = ["cap 5, root 1: in bits", [[["passed", ROOT_GUARD], ["slot-bits", "0101"], "→ root[5]"], [["passed", ROOT_GUARD], ["slot-bits", "0001"], "→ root[1]"]]]
    test.wanted(folded == wanted, f"of words through the root CNode is told {folded}")
    at_call(test, "mistakes", "index_without_its_depth", 2)
    told = [it for it in test.browser.value(WAYS)["ways"] if it[0] == "index 3"]
    boxes = [[look, bits] for look, bits, _ in told[0][1]] if told else []
    test.wanted(boxes == [["slot-bits", "00"], ["refused-bits", 60 * "0" + "11"]] and told[0][2] == "✕ no slot", f"an index with bits left over is drawn as {told}")
    at_call(test, "why_lookups", "retype_with_bits_left", 3)
    told = [it for it in test.browser.value(WAYS)["ways"] if it[0] == "index 12"]
    boxes = [[look, bits] for look, bits, _ in told[0][1]] if told else []
    test.wanted(boxes == [["slot-bits", "00"], ["refused-bits", 26 * "0" + "1100"]], f"the index of a retype is drawn as {told}")
    at_call(test, "why_depths", "retype_at_depth_65", 2)
    told = test.browser.value(WAYS)["ways"]
    test.wanted(not any(it[0].startswith("index") for it in told), f"an index of 65 bits is drawn as {told}")


# The traces of the set-ups in the page, but for long ones.
TRACES = """(async () => {
  const told = {};
  for (const { topic, setups } of sel4sim.page.data.topics) {
    for (const { name, text } of setups.filter((it) => it.text.length < 40000)) {
      const { status, output } = await sel4sim.run(["trace", "--ways", name], name, new TextEncoder().encode(text));
      if (status < 2) told[`${topic}/${name}`] = new TextDecoder().decode(output);
    }
  }
  return told;
})()"""


def ways_agree(test, _):
    """The ways of all words of all calls of the set-ups in the page agree with what the program says of them."""
    path = pathlib.Path(test.folder, "traces.json")
    path.write_text(json.dumps(test.browser.value(TRACES)))
    ran = subprocess.run(["node", TOP / "web" / "browser" / "test" / "ways_agree.mjs", path], capture_output=True, text=True, check=False)
    test.wanted(ran.returncode == 0, f"{ran.stdout[-600:]}{ran.stderr[-600:]}")


NAMED = f"""(() => {{
  const inside = {INSIDE};
  const texts = (wanted) => [...inside.querySelectorAll(wanted)].map((it) => it.textContent.replace(/\\s+/gu, " ").trim());
  return {{ forest: texts("#forest .node"), cells: texts("#spaces .cell:not(.empty)"), nodes: texts("#spaces h3"), threads: texts(".threads > li"),
    endpoints: texts(".endpoints > li"), memory: texts(".tops > li"), regions: texts("#memory h3"), calls: texts(".call .title"),
    titles: [...inside.querySelectorAll(".call .title")].map((it) => it.title) }};
}})()"""


def names(test, _):
    """Where the set-up has a name for a slot, the drawings have it: in the forest and in the capability spaces behind the slot, and behind an
    endpoint, a CNode and a region the name of the slot that their original capability is in; the list of calls has names in place of numbers."""
    wanted = (("revocation_of_badged_copies", 8, (("forest", "root[8] kept_for_first"), ("cells", "8 kept_for_first"))),
              ("two_clients_by_badge", 4, (("threads", "sending 8192 endpoint"), ("endpoints", "8192 endpoint sending"), ("memory", "8192 endpoint"),
                                           ("calls", "send second by for_second"), ("calls", "mint server endpoint → for_first"), ("titles", "mint server 5 → 8"))),
              ("guarded_address_space", 4, (("nodes", "16384 first 4 slots"), ("regions", "16384 memory 4096 B"), ("calls", "first → tree"))),
              ("three_clients", 6, (("forest", "root[5] ep"), ("endpoints", "8192 ep"), ("calls", "send first by ep"))),
              ("layout_of_three_components", 9, (("forest", "root[6] samples"), ("nodes", "16384 of_driver"), ("endpoints", "10256 records"),
                                                 ("calls", "loader samples → 16384[1]"))))
    for name, number, told in wanted:
        at_call(test, "examples", name, number)
        found = test.browser.value(NAMED)
        for where, text in told:
            test.wanted(any(text in it for it in found[where]), f"{name}: no {where} have {text!r}: {found[where]}")


CHECKS = (empty_and_far, contrasts, contrasts_of_parts, projected_sizes, resized, ways_in_bits, each_word_in_bits, ways_agree, names)
