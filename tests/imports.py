#!/usr/bin/env python3
"""imports.py PROGRAM FOLDER SEED COUNT [SHARED]: imports layouts, runs the set-ups, and compares their ends with what the layouts say.

FOLDER has layouts, each with its listing in a file `.listing`, and with `--flows` in a file `.flows`, written by another
reader; in `wrong` layouts with one fault each; in `names` those whose names look alike or are long; in `hardware` those whose
threads share a guest, memory, ports or an interrupt; in `spellings` those that are spelt as tools spell them; and in `json` those in
capDL's JSON form. COUNT random layouts are drawn from SEED, in both forms, and their listings are compared with what was drawn. Of
SHARED others, a tenth of COUNT if that is not said, two threads have something in common or nothing. A `.system` file NAME has to come to the set-up of the layout NAME_from_system, which another program
made of it. The end of each set-up is read off the report of `check`: each slot of the layout holds its capability, no other slot is
full but the loader's, threads are ready or inactive as asked, and nobody waits on an endpoint; what the slots have to hold is drawn
here, or read by a few expressions that know nothing of the program. The set-up is also given to `check -`. A call of it is taken out or changed in some: then the end has to differ."""
import copy
import difflib
import json
import pathlib
import random
import re
import subprocess
import sys
import tempfile
import tomllib

# The line of the first fault, by the name of the layout.
FAULTS = {
    "arch_unknown": 1, "brace_missing": 10, "cspace_is_no_cnode": 13, "declared_twice": 6, "guard_too_long": 13,
    "guard_value_too_long": 13, "kind_misspelt": 3, "no_arch": 2, "no_end": 15, "no_size": 4, "object_misspelt": 10,
    "right_unknown": 10, "section_misspelt": 8, "slot_outside": 10, "slot_twice": 11, "slots_of_an_endpoint": 12,
    "tcb_slot_misspelt": 13, "tcb_slot_of_a_cnode": 10, "too_large": 1, "untyped_twice": 11,
    # Those of `.system` files.
    "attribute_twice": 14, "comment_not_closed": 13, "document_type": 2, "domain_misspelt": 15, "domain_twice": 9,
    "element_not_closed": 16, "equals_sign_missing": 7, "id_of_an_interrupt": 14, "id_too_large": 14, "interrupt_twice": 11,
    "name_with_blank": 9, "neither_true_nor_false": 15, "no_name": 3, "no_system": 2, "one_end": 13, "permissions_unknown": 11,
    "region_misspelt": 11, "region_named_as_thread": 10, "sign_by_itself": 10, "three_ends": 13, "two_systems": 18,
    "value_not_closed": 5, "several": 5, "several_parts": 4,
}
# The lines of all faults, where there are several: behind one the reading goes on at the next `}` or at the next element.
SEVERAL = {"several.cdl": [5, 7, 8, 10, 12], "several_parts.system": [4, 5, 7, 10]}
# The words by which `.system` files are read as the layouts that another program made of them.
LEAST = ["--rights", "least"]
RIGHTS = (("W", "w"), ("R", "r"), ("G", "g"), ("P", "p"))


def drawn(seed):
    """Returns a random layout as text, and what it says: the objects with kind and size, the slots, and who is inactive."""
    r = random.Random(seed)
    arch, word, badge = r.choice([("x86_64", 64, 64), ("aarch64", 64, 64), ("arm11", 32, 28), ("riscv", 64, 64)])
    objects, lines, inactive = {}, [], set()
    for i in range(r.randint(1, 8)):
        objects[f"cn_{i}"] = ("cnode", r.randint(1, 6))
    for i in range(r.randint(1, 8)):
        objects[f"T{i}.main"] = ("tcb", 0)
    for i in range(r.randint(0, 8)):
        objects[f"ep_{i}"] = ("ep", 0)
    for i in range(r.randint(0, 4)):
        objects[f"ut_{i}"] = ("ut", r.randint(8, 14))
    regions = [name for name, (kind, _) in objects.items() if kind == "ut"]
    covered = {name: [] for name in regions}
    for name, (kind, bits) in objects.items():
        if kind == "ep" and regions and r.random() < 0.3:
            covered[r.choice(regions)].append(name)
        elif kind == "tcb" and r.random() < 0.2:
            inactive.add(name)
            lines.append(f"{name} = tcb (prio: 100, resume: false)")
        elif kind != "ut":
            lines.append(f"{name} = {kind}" + (f" ({bits} bits)" if bits else ""))
    lines += [f"{u} = ut ({objects[u][1]} bits) {{ " + " ".join(f"{e} = ep" for e in covered[u]) + " }" for u in regions]
    lines += [f"f{i} = {r.choice(['frame (4k)', 'notification', 'pt'])}" for i in range(r.randint(0, 3))]
    r.shuffle(lines)
    return arch, word, badge, objects, lines, inactive, regions, r


def capability(r, word, badge, objects, free):
    """Returns a random capability as it is written in a layout, and what the report has to say of it, by the object's name."""
    endpoints = [name for name, (kind, _) in objects.items() if kind == "ep"]
    what = r.random()
    if what < 0.5 and endpoints:
        name = r.choice(endpoints)
        letters = "".join(x for x, _ in RIGHTS if r.random() < 0.5)
        number = r.choice([0, 1, 7, 0xFF, 2**badge - 1])
        shown = "".join(y if x in letters or not letters else "-" for x, y in RIGHTS)
        said = ([letters] if letters else []) + ([f"badge: {number:#x}"] if number else [])
        return name + (f" ({', '.join(said)})" if said else ""), (name, f"badge {number} rights {shown}")
    if what < 0.7:
        name = r.choice([name for name, (kind, _) in objects.items() if kind == "tcb"])
        return name, (name, "")
    if what < 0.9 or not free:
        name = r.choice([name for name, (kind, _) in objects.items() if kind == "cnode"])
        size = r.choice([0, r.randint(0, word - objects[name][1])])
        value = r.getrandbits(min(size, 18)) if size else 0
        return f"{name} (guard: {value}, guard_size: {size})", (name, f"radix {objects[name][1]} guard {value} size {size}")
    name = free.pop()
    return name, (name, f"bits {objects[name][1]}")


def layout(seed):
    """Returns the text of a random layout, its slots and the inactive threads."""
    arch, word, badge, objects, lines, inactive, regions, r = drawn(seed)
    text, want = [f"arch {arch}", "objects {", *lines, "}", "caps {"], {}
    for name, (kind, bits) in objects.items():
        if kind == "cnode":
            text.append(f"{name} {{")
            for slot in r.sample(range(2**bits), r.randint(0, min(2**bits, 8))):
                said, held = capability(r, word, badge, objects, regions)
                text.append(f"{slot:#x}: {said}" if r.random() < 0.5 else f"{slot}: {said}")
                want[name, slot] = held
            text.append("}")
        if kind == "tcb" and r.random() < 0.9:
            root = r.choice([other for other, (its, _) in objects.items() if its == "cnode"])
            size = word - objects[root][1]
            text.append(f"{name} {{ cspace: {root} (guard: 0, guard_size: {size}) }}")
            want[name, 0] = (root, f"radix {objects[root][1]} guard 0 size {size}")
    return "\n".join([*text, "}", ""]), objects, want, inactive, 32 if word == 64 else 16


def listing(text, objects, want, inactive):
    """Returns the lines of the listing of a layout, which has no letters where it says no rights of an endpoint's capability."""
    kinds = {"cnode": "cnode", "tcb": "tcb", "ep": "endpoint", "ut": "untyped"}
    places = {(holder, slot): f"{holder}.cspace" if objects[holder][0] == "tcb" else f"{holder}[{slot}]" for holder, slot in want}
    slots = [f"{places[at]} {kinds[objects[name][0]]} {name} {told}".rstrip() for at, (name, told) in want.items()]
    assumed = ["assumed rights all"] if re.search(r": ep_\d+( \(badge: \w+\))?$", text, re.M) else []
    return slots + [f"{name} inactive" for name in inactive] + assumed


def run(program, words, text):
    return subprocess.run([program, *words], input=text, capture_output=True, text=True)


def named(text):
    """Returns the addresses of the names of a set-up."""
    return tomllib.loads(text)["names"]


def shown(report):
    """Returns what the lines of a report tell: full slots, threads and endpoints by their addresses."""
    slots, states = {}, {}
    for line in report.splitlines():
        word, _, rest = line.partition(" ")
        at, _, told = rest.partition(" ")
        if word == "slot":
            slots[int(at)] = told.replace(" children", "").split(" free")[0]
        if word in ("thread", "endpoint"):
            states[int(at)] = told
    return slots, states


def differences(report, text, objects, want, inactive, size):
    """Yields what in the end of a set-up is not as the layout says. Regions have no name where others stand at their addresses."""
    places, (slots, states) = named(text), shown(report)
    end = size * 2 ** int(re.search(r"root_radix = (\d+)", text)[1])
    expected = {places["loader"]: None}
    kinds = {"cnode": "cnode", "tcb": "tcb", "ep": "endpoint", "ut": "untyped"}
    for (holder, slot), (name, told) in want.items():
        at = places[called(holder)] + slot * size
        kind, place = kinds[objects[name][0]], places.get(called(name))
        expected[at] = f"{kind} {place} {told}".strip() if place is not None else None
        if at not in slots or not slots[at].startswith(kind):
            yield f"{holder}[{slot}] holds {slots.get(at)}"
        elif expected[at] is not None and slots[at] != expected[at]:
            yield f"{holder}[{slot}] holds {slots[at]}, and not {expected[at]}"
    for at in slots:
        if at >= end and at not in expected:
            yield f"slot {at} holds {slots[at]}"
    for name, (kind, _) in objects.items():
        state = {"tcb": "inactive" if name in inactive else "ready", "ep": "idle"}.get(kind)
        if state and states.get(places[called(name)]) != state:
            yield f"{name} is {states.get(places[called(name)])}"


def held(line):
    """Returns a line of a listing without the numbers of its slots: with `--flows` slots are numbered anew."""
    return re.sub(r"^(\S+)\[\d+\] below (\S+)\[\d+\]$", r"\1 below \2", re.sub(r"^(\S+)\[\d+\] (?!below )", r"\1 ", line))


def flows_of(program, folder):
    """Yields which layouts of a folder are not imported with `--flows`, or answer `never` as without it where two share a frame."""
    for path in sorted(folder.glob("*.cdl")):
        made = run(program, ["import", "--flows", str(path)], "")
        checked = run(program, ["check", "-"], made.stdout)
        if made.returncode or checked.returncode:
            yield f"{path.name}: with --flows status {made.returncode}, and of its set-up {checked.returncode}"
        listed = run(program, ["import", "--flows", "--listing", str(path)], "").stdout.splitlines()
        wanted = path.with_suffix(".flows").read_text().splitlines()
        if sorted(map(held, listed)) != sorted(map(held, wanted)):
            yield f"{path.name}: with --flows its listing has other lines"
        slots = [line.split()[0] for line in listed if " below " not in line]
        if len({*slots}) != len(slots):
            yield f"{path.name}: with --flows a slot has two lines"
    for flows, answer in (([], "excluded"), (["--flows"], "possible")):
        made = run(program, ["import", *flows, str(folder / "microkit_hello.cdl")], "").stdout
        words = ["never", "hello_tcb,serial_tcb", "--without", "loader,monitor_tcb", "-"]
        if f" {answer}\n" not in run(program, words, made).stdout:
            yield f"microkit_hello.cdl: it is not {answer} that hello leads to serial, with {flows}"


def tail_of(name):
    """Returns the name that an object has where a set-up cannot have its own: 27 letters, and a number of all its bytes (FNV-1a)."""
    number = 0x811C9DC5
    for byte in name.encode():
        number = (number ^ byte) * 0x01000193 % 2**32
    return re.sub(r"[^a-z0-9_]", "_", name.lower().replace("]", ""))[:27] + f"_{number:08x}"


def called(name):
    """Returns the name of an object in a set-up: its own, where that can stand there and is none of the importer's."""
    return name if re.fullmatch("[a-z0-9_]{1,36}", name) and name not in ("loader", "import_flows") else tail_of(name)


def names_of(program, folder):
    """Yields what is wrong with the names of layouts in which they look alike, are the importer's, or are long."""
    text = (folder / "alike.cdl").read_text()
    objects = {*re.findall(r"^(\w+) = ", text, re.M), "pump[0]", "pump[1]"}
    for flows, importers in (([], {"loader"}), (["--flows"], {"import_flows", "loader", "log_reply", "loader_slots", "valve_slots"})):
        made = run(program, ["import", *flows, "-"], text)
        tails = {tail_of(name): name for name in objects if called(name) != name or name in importers}
        if set(named(made.stdout)) != importers | set(tails) | {name for name in objects if name not in tails.values()}:
            yield f"alike.cdl: other names with {flows}: {named(made.stdout)}"
        if dict(re.findall("^# name (.*): (.*)$", made.stdout, re.M)) != tails:
            yield f"alike.cdl: not these names are told as comments with {flows}: {tails}"
        for tail, name in tails.items():
            said = "is a name of the importer: this object is" if re.fullmatch(r"\w+", name) and name == name.lower() else "is"
            if f"warning: {name} {said} {tail} in the set-up\n" not in made.stderr:
                yield f"alike.cdl: no warning says with {flows} that {name} is {tail}"
    one, other = [run(program, ["import", str(folder / f"{name}.cdl")], "").stdout for name in ("long", "long_swapped")]
    with tempfile.NamedTemporaryFile("w", suffix=".toml") as policy:
        policy.write(run(program, ["draft", "--without", "loader", "-"], one).stdout)
        policy.flush()
        status = [run(program, ["policy", policy.name, "-"], made).returncode for made in (one, other)]
    if status != [0, 1]:
        yield f"long.cdl: a policy of it has the statuses {status} of it and of a layout in which the names are exchanged"
    made = run(program, ["import", "--flows", str(folder / "threads.cdl")], "")
    both = ",".join(tail_of(f"camera_driver_component_instance_{side}_control_tcb") for side in ("left", "right"))
    for words, status, said in ((["never", both], 1, " possible\n"), (["how", both], 4, "")):
        asked = run(program, [*words, "--without", "loader", "-"], made.stdout)
        if asked.returncode != status or said not in asked.stdout or "excluded" in asked.stdout:
            yield f"threads.cdl: {words[0]} of two threads that share a page: {asked.returncode} {asked.stdout[:200]!r}"


# Of layouts whose threads share hardware: what is asked of two threads with `--flows`, and whether it is possible.
SHARED = {
    "guests.system": [("north_tcb,south_tcb", True), ("keeper_tcb,south_tcb", True), ("keeper_tcb,south_guest_tcb_3", True),
                      ("north_guest_tcb,south_guest_tcb", True), ("keeper_tcb,alone_tcb", False), ("north_tcb,alone_tcb", False)],
    "overlaps.system": [("one_tcb,two_tcb", True), ("one_tcb,clock_tcb", True), ("two_tcb,three_tcb", False), ("two_tcb,clock_tcb", False)],
    "software_interrupt.cdl": [("sender,hearer", True), ("sender,mapper", True), ("hearer,mapper", False), ("sender,alone", False)],
}


def shared_of(program, folder):
    """Yields which threads that share a guest, memory, ports or an interrupt are told apart, and which are not that share nothing."""
    for name, asked in SHARED.items():
        made = run(program, ["import", "--flows", *LEAST, str(folder / name)], "")
        if made.returncode:
            yield f"{name}: status {made.returncode} {made.stderr[-200:]}"
        trusted = "loader,monitor_tcb" if name.endswith(".system") else "loader"
        for both, possible in asked:
            told = run(program, ["never", both, "--without", trusted, "-"], made.stdout)
            if told.returncode != possible or ("excluded" in told.stdout) == possible:
                yield f"{name}: {both}: status {told.returncode} {told.stdout[-200:]!r}"
    listed = run(program, ["import", "--plain", "--listing", *LEAST, str(folder / "guests.system")], "").stdout
    for line in ("south_cnode[269] tcb south_guest_tcb_3", "south_cnode[266] tcb south_guest_tcb", "north_guest_cnode[1] endpoint north_ep badge 4611686018427387904 rights w--p",
                 "south_guest_tcb_3.cspace cnode south_guest_cnode radix 6 guard 0 size 58"):
        if f"{line}\n" not in listed:
            yield f"guests.system: no line {line!r}"
    made = run(program, ["import", "--flows", str(folder / "in_a_region.cdl")], "")
    if made.returncode != 2 or "page is in the physical memory of memory, which does not cover it" not in made.stderr:
        yield f"in_a_region.cdl: status {made.returncode} {made.stderr[:200]!r}"


# What two threads can have in common in a layout that is drawn: a page, a signal, a call, a guest's processor, ports, time, an interrupt.
COMMON = [("frame (4k)", "RW"), ("notification", "RW"), ("ep", "RWGP"), ("vcpu", ""), ("io_ports", ""), ("sc", ""), ("arm_irq", "")]


def shares(seed, common):
    """Returns a random layout of threads with long names, of which the first and the last have one object in common or none, and the
    names of these two. Each frame has a page of its own in physical memory, and each object for ports its own 32, but one that has a
    part of the first one's: these are one object. A guest in common can be a thread that both control."""
    r = random.Random(seed)
    kind, letters = r.choice(COMMON)
    is_mapped, is_part = kind.startswith("frame") and r.random() < 0.7, kind in ("frame (4k)", "io_ports") and r.random() < 0.5
    names = [f"{r.choice(['camera', 'network', 'storage'])}_{'component_' * r.randint(0, 5)}{i}_tcb" for i in range(r.randint(2, 5))]
    kinds = [{"io_ports": f"io_ports (ports: [{96 + 32 * i}-{127 + 32 * i}])", "frame (4k)": f"frame (4k, paddr: {4096 * (i + 16)})"}.get(kind, kind)
             for i in range(len(names))]
    if is_part and common:
        kinds[-1] = "io_ports (ports: [64-96])" if kind == "io_ports" else "frame (8k, paddr: 61440)"
    if kind == "vcpu" and r.random() < 0.5:
        kinds = ["tcb"] * len(names)
    text = ["arch aarch64", "objects {", *(f"{name} = tcb\ncn_{i} = cnode (4 bits)\npt_{i} = pt\nown_{i} = {kinds[i]}" for i, name in enumerate(names)), "}", "caps {"]
    for i, name in enumerate(names):
        held = "own_0" if common and i == len(names) - 1 and not is_part else f"own_{i}"
        cap = held + (f" ({letters})" if letters else "")
        text += [f"pt_{i} {{ {r.randint(0, 99)}: {cap} }}" if is_mapped else f"cn_{i} {{ {r.randint(0, 15)}: {cap} }}",
                 f"{name} {{ cspace: cn_{i} (guard: 0, guard_size: 60)\nvspace: pt_{i} }}"]
    return "\n".join([*text, "}", ""]), called(names[0]), called(names[-1])


def shares_of(program, seed, count):
    """Yields which random layouts are told apart although two threads have an object in common, or the other way round; and which keep
    to a policy that was drafted of the same layout with nothing in common."""
    for number in range(count):
        apart = ""
        for common in (False, True):
            text, one, other = shares(f"{seed} shares {number}", common)
            made = run(program, ["import", "--flows"], text)
            told = run(program, ["never", f"{one},{other}", "--without", "loader", "-"], made.stdout)
            if made.returncode or told.returncode != common or f" {'possible' if common else 'excluded'}\n" not in told.stdout:
                yield f"shares {number} of {seed}: {common}, but status {told.returncode} {told.stdout[-120:]!r}"
            apart = apart or run(program, ["draft", "--without", "loader", "-"], made.stdout).stdout
            with tempfile.NamedTemporaryFile("w", suffix=".toml") as policy:
                policy.write(apart)
                policy.flush()
                kept = run(program, ["policy", policy.name, "-"], made.stdout)
            # A policy is refused if it names the answers to calls of an endpoint that is not called now.
            if kept.returncode not in ((1, 2) if common else (0,)) or ("kept" in kept.stdout) == common:
                yield f"shares {number} of {seed}: {common}, but of a policy status {kept.returncode} {kept.stdout[-120:]!r} {kept.stderr[:200]!r}"


# What says nothing of capabilities: comments, the declaration of XML, programs, and a guest's processor 0, which it has without a word.
SAYS_NOTHING = re.compile(r'\s*($|--|#|//|<!--|<\?xml |<program_image |<vcpu id="0")')
# Layouts of more lines are left out, since each line is a run.
MOST_LINES = 120


def losses_of(program, folder):
    """Yields the statements of layouts that could be lost: without one of them something else has to be listed, or said."""
    for path in sorted(it for it in (*folder.iterdir(), *(folder / "hardware").iterdir()) if it.suffix in (".cdl", ".system")):
        lines = path.read_text(errors="replace").splitlines(keepends=True)
        if len(lines) > MOST_LINES:
            continue

        def told(text):
            return [(it.returncode, it.stdout, it.stderr) for it in (run(program, ["import", *words, "--listing", "-"], text) for words in ([], ["--flows"]))]

        whole = told("".join(lines))
        for number, line in enumerate(lines):
            if not SAYS_NOTHING.match(line) and told("".join([*lines[:number], "\n", *lines[number + 1 :]])) == whole:
                yield f"{path.name}: nothing is read of line {number + 1}: {line.strip()}"


def spellings_of(program, folder):
    """Yields which layouts are not read that are spelt as tools spell them."""
    for path in sorted(folder.glob("*.cdl")):
        listed = run(program, ["import", "--listing", str(path)], "")
        if sorted(listed.stdout.splitlines()) != sorted(path.with_suffix(".listing").read_text().splitlines()):
            yield f"{path.name}: its listing has other lines: {listed.stderr[:300]!r}"
        made = run(program, ["import", str(path)], "")
        if made.returncode or run(program, ["check", "-"], made.stdout).returncode:
            yield f"{path.name}: status {made.returncode}"
    text = (folder / "copies.cdl").read_text()
    for old, new, line, said in (("<master> (masked", "<mastr> (masked", 15, "there is no capability mastr"),
                                 ("(RWP, masked: WP)", "(RWP, maskd: WP)", 23, "there is no parameter maskd of a capability")):
        made = run(program, ["import", "-"], text.replace(old, new))
        if (made.returncode != 2 or made.stdout != f"layout refused at {line}\n" or said not in made.stderr):
            yield f"copies.cdl with {new!r}: {made.returncode} {made.stdout[:40]!r} {made.stderr[:200]!r}"


# A layout that is whole with `--flows`; and what is left out of it or assumed if a line of it is another one: the line, the words.
WHOLE = """arch aarch64
objects {
one = tcb
two = tcb
cn_one = cnode (3 bits)
cn_two = cnode (3 bits)
door = ep
bell = notification
page = frame (4k)
table = pt
}
caps {
cn_one { 1: door (RW)
2: bell (W, badge: 4)
}
cn_two { 1: door (W, badge: 3)
2: bell (R)
}
table { 0: page (RW) }
one { cspace: cn_one (guard: 0, guard_size: 61)
vspace: table }
two { cspace: cn_two (guard: 0, guard_size: 61) }
}
"""
GAPS = [
    ("2: bell (W, badge: 4)", "2: bell (badge: 4)", 14, "bell: no rights are given, so the capability has all"),
    ("door (W, badge: 3)", "door (badge: 3)", 16, "door: no rights are given, so the capability has all"),
    ("2: bell (R)", "2: irq_control", 17, "slot 2 of cn_two: irq_control is left out"),
    ("page (RW)", "page (RW, tinted: 1)", 19, "the parameter tinted of this capability of page is left out"),
    ("page = frame (4k)", "page = frame (4k) { more = ep }", 9, "what stands in braces behind page is left out"),
    ("page = frame (4k)", "page = frame (4k, place: 4096)", 9, "the parameter place of page is left out"),
    ("table = pt\n", "table = pt\nsoft = sgi_signal (irq: 7, target: 0)\n", 11, "irq maps has no interrupt 7, which soft signals"),
    ("size: 61) }\n}\n", "size: 61) }\n}\ncdt { (cn_one, 1) { (cn_two, 1) } }\n", 24,
     "no take is seen by this row of the cdt: the set-up has it beside the slot of line 13, and not below that"),
]


def strict_of(program, folder):
    """Yields which layouts are taken strictly that have gaps, or refused that have none."""
    def lines_of(made, kind):
        return [int(it) for it in re.findall(rf":(\d+):\d+: {kind}: ", made.stderr)]

    for words in (["--flows"], ["--flows", "--listing"]):
        taken, strict = [run(program, ["import", *words, *more, "-"], WHOLE) for more in ([], ["--strict"])]
        if strict.returncode or strict.stdout != taken.stdout or "error" in strict.stderr:
            yield f"whole layout with {words}: {strict.returncode} {strict.stderr[:200]!r}"
    plain = run(program, ["import", "--strict", "-"], WHOLE)
    if plain.returncode != 2 or plain.stdout != "layout refused at 8\n" or lines_of(plain, "error") != [8, 9, 10]:
        yield f"whole layout without --flows: {plain.returncode} {plain.stdout!r} {plain.stderr[:300]!r}"
    for old, new, line, said in GAPS:
        taken, strict = [run(program, ["import", "--flows", *more, "-"], WHOLE.replace(old, new)) for more in ([], ["--strict"])]
        if taken.returncode or f":{line}:" not in taken.stderr or f"warning: {said}\n" not in taken.stderr or f"# line {line}: {said}\n" not in taken.stdout:
            yield f"whole layout with {new!r}: {taken.returncode} {taken.stderr[:200]!r}"
        if ("# assumed rights all\n" in taken.stdout) != ("no rights" in said):
            yield f"whole layout with {new!r}: its head tells rights that were assumed, or does not"
        if strict.returncode != 2 or strict.stdout != f"layout refused at {line}\n" or lines_of(strict, "error") != [line] or f"error: {said}\n" not in strict.stderr:
            yield f"whole layout with {new!r}, strictly: {strict.returncode} {strict.stdout[:50]!r} {strict.stderr[:200]!r}"
    text = (folder / "hello.system").read_text()
    for words, new, line in (([], text, 3), (LEAST, text, 0), (["--rights", "all"], text, 0), (LEAST, text.replace('<irq irq="33"', '<irq irg="1" irq="33"'), 11),
                             (LEAST, text.replace("    <channel>\n", "    <chanel />\n    <channel>\n", 1), 22)):
        made = run(program, ["import", "--flows", "--strict", *words, "-"], new)
        if made.returncode != (2 if line else 0) or line and (made.stdout != f"layout refused at {line}\n" or lines_of(made, "error") != [line]):
            yield f"hello.system, strictly with {words}: {made.returncode} {made.stdout[:50]!r} {made.stderr[:200]!r}"
    for words, said in (([], "all"), (["--rights", "all"], "all"), (LEAST, "least")):
        listed = run(program, ["import", "--listing", *words, "-"], text).stdout
        if listed.splitlines()[-1] != f"assumed rights {said}":
            yield f"hello.system with {words}: the last line of its listing is {listed.splitlines()[-1]!r}"
    alone = run(program, ["import", "-"], "arch aarch64\nobjects {\na = tcb\nb = tcb\nc = tcb\n}\ncaps {\n}\n")
    if alone.returncode or not re.fullmatch("[^\n]*:3:1: warning: a has no cspace: it can make no call; and 2 more such\n", alone.stderr):
        yield f"three threads without a space: {alone.returncode} {alone.stderr!r}"


# A layout with a cdt; and rows that are not kept with `--flows`, with the words that are said of them, or that are at fault.
ROWS = """arch aarch64
objects {
owner = tcb
user = tcb
cn_owner = cnode (3 bits)
cn_user = cnode (3 bits)
door = ep
bell = notification
page = frame (4k)
table = pt
}
caps {
cn_owner { 1: whole = door (RWGP)
2: bell (W, badge: 4)
3: page (RW)
5: bell (RW)
4: irq_control
}
cn_user { 1: door (W, badge: 3)
2: bell (W, badge: 4)
3: page (R)
5: bell (W, badge: 4)
4: irq_control
}
table { 0: page (R) }
owner { cspace: cn_owner (guard: 0, guard_size: 61) }
user { cspace: cn_user (guard: 0, guard_size: 61)
vspace: table }
}
cdt {
whole { (cn_user, 1) }
(cn_owner, 2) { (cn_user, 2) }
(cn_owner, 3) { (cn_user, 3) (table, 0) }
}
"""
LOST_ROWS = [
    ("(cn_user, 2) { (cn_user, 5) }", "the set-up has it beside the slot of line 20, and not below that"),
    ("(cn_owner, 5) { (cn_user, 5) }", "the set-up has it beside the slot of line 16, and not below that"),
    ("(cn_owner, 4) { (cn_user, 4) }", "a capability of it is left out"),
    ("(cn_owner, 2) { (cn_user, 3) }", None),
]


def rows_of(program):
    """Yields which rows of a cdt are kept with `--flows` that are not to be, or the other way round, and what is not told of the others
    at their places."""
    kept = ["cn_user[0] below cn_owner[0]"] * 3 + ["table[0] below cn_owner[0]"]
    for words in ([], ["--strict"]):
        text = ROWS if not words else ROWS.replace("4: irq_control\n", "")
        listed = run(program, ["import", "--flows", "--listing", *words, "-"], text)
        below = [line for line in listed.stdout.splitlines() if " below " in line]
        if listed.returncode or sorted(map(held, below)) != sorted(map(held, kept)):
            yield f"rows: status {listed.returncode} with {words}: {below} {listed.stderr[:300]!r}"
    for text, takes in ((ROWS, 1), (re.sub(r"(whole|.*, 3\)) \{ \(cn.*\n", "", ROWS), 1), (re.sub(r"(whole|.*, 2\)) \{ \(cn.*\n", "", ROWS), 1), (ROWS[: ROWS.index("cdt")], 0)):
        made = run(program, ["import", "--flows", "-"], text)
        told = run(program, ["ever", "--without", "loader", "-"], made.stdout)
        if made.returncode or not told.stdout.endswith(f" takes {takes}\n"):
            yield f"rows: status {made.returncode}, and not {takes} takes: {told.stdout[-200:]!r}"
    for row, said in LOST_ROWS:
        text = ROWS.replace("cdt {\n", f"cdt {{\n{row}\n")
        line, column = text[: text.index(row)].count("\n") + 1, row.index("cn_user", 12) + 1
        taken, strict = [run(program, ["import", "--flows", *more, "-"], text) for more in ([], ["--strict"])]
        if said is None:
            if taken.returncode != 2 or f":{line}:" not in taken.stderr:
                yield f"rows with {row!r}: {taken.returncode} {taken.stderr[:300]!r}"
            continue
        told = f"standard input:{line}:{column}: {{}}: no take is seen by this row of the cdt: {said}\n"
        if taken.returncode or told.format("warning") not in taken.stderr or len(re.findall(r"^# \S+ below \S+$", taken.stdout, re.M)) != len(kept):
            yield f"rows with {row!r}: {taken.returncode} {taken.stderr[:400]!r}"
        if strict.returncode != 2 or told.format("error") not in strict.stderr:
            yield f"rows with {row!r}, strictly: {strict.returncode} {strict.stderr[:400]!r}"
        plain = run(program, ["import", "-"], text)
        if plain.returncode or run(program, ["check", "-"], plain.stdout).returncode:
            yield f"rows with {row!r}, without --flows: {plain.returncode} {plain.stderr[:400]!r}"


def random_rows_of(program, seed, count):
    """Yields of which random layouts `ever` sees other takes with `--flows` than were drawn: each endpoint has an owner, who holds the
    original and can empty the slots of the others that have it, if the cdt says so."""
    for number in range(count):
        r = random.Random(f"{seed} rows {number}")
        threads, doors = range(r.randint(2, 5)), range(r.randint(1, 4))
        caps, rows, takes, free = {it: [] for it in threads}, [], set(), {it: iter(r.sample(range(16), 16)) for it in threads}
        for door in doors:
            owner, is_said = r.choice(threads), r.random() < 0.7
            at = next(free[owner])
            caps[owner].append(f"{at}: door_{door} (RWGP)")
            for user in r.sample(threads, r.randint(0, len(threads))):
                slot = next(free[user])
                caps[user].append(f"{slot}: door_{door} (W, badge: {r.choice([1, 2])})")
                if is_said:
                    rows.append(f"(cn_{owner}, {at}) {{ (cn_{user}, {slot}) }}")
                    takes |= {(owner, user)} if user != owner else set()
        r.shuffle(rows)
        text = ["arch aarch64", "objects {", *(f"t_{it} = tcb\ncn_{it} = cnode (4 bits)" for it in threads), *(f"door_{it} = ep" for it in doors), "}", "caps {",
                *(f"cn_{it} {{ {' '.join(caps[it])} }}\nt_{it} {{ cspace: cn_{it} (guard: 0, guard_size: 60) }}" for it in threads), "}", "cdt {", *rows, "}", ""]
        made = run(program, ["import", "--flows"], "\n".join(text))
        told = run(program, ["ever", "--without", "loader", "-"], made.stdout)
        if made.returncode or "no take is seen" in made.stderr or len(re.findall(r"^# \S+ below \S+$", made.stdout, re.M)) != len(rows) or not told.stdout.endswith(f" takes {len(takes)}\n"):
            yield f"rows {number} of {seed}: status {made.returncode}, {takes} are to be seen: {told.stdout[-100:]!r} {made.stderr[-200:]!r}"


def notes_of(program, folder):
    """Yields what is wrong with the notes that lead from a call by which a policy is broken to the layout."""
    with tempfile.TemporaryDirectory() as room:
        layout, setup, policy = [pathlib.Path(room, name) for name in ('a "b" \\.cdl', "setup.toml", "policy.toml")]
        layout.write_text((folder / "file_server.cdl").read_text())
        made = run(program, ["import", str(layout)], "").stdout
        policy.write_text(run(program, ["draft", "--without", "loader", "-"], made).stdout)
        lines = made.splitlines()
        at = next(number for number, line in enumerate(lines) if 'op = "mint"' in line and "badge" in line)
        call, comment = re.fullmatch(r"(.* \}),  # (\d+: .*)", lines[at]).groups()
        number, words = comment.split(": ", 1)
        for again, place in (([lines[at]], at + 2), ([f"# {comment}", call + ","], at + 3), ([call + ","], 0)):
            setup.write_text("\n".join([*lines[: at + 1], *again, *lines[at + 1 :], ""]))
            told = run(program, ["policy", str(policy), str(setup)], "")
            where = next((it for it, line in enumerate(told.stderr.splitlines()) if line.startswith(f"{setup}:{place or at + 2}:5: error: ")), None)
            behind = told.stderr.splitlines()[(where or 0) + 1 :][:1]
            if told.returncode != 1 or where is None or (behind == [f"{layout}:{number}:1: note: {words}"]) != (place > 0):
                yield f"notes: status {told.returncode}, and no note leads to line {number}: {told.stderr[:600]!r}"
        setup.write_text("\n".join([*[line for line in lines[: at + 1] if not line.startswith("# layout ")], lines[at], *lines[at + 1 :], ""]))
        if ": note: " in run(program, ["policy", str(policy), str(setup)], "").stderr:
            yield "notes: a note leads to a layout of which no path is told"
        setup.write_text("\n".join([*lines[: at + 1], *lines[at:], ""]))
        threads = re.findall(r"^group \S+ threads (\S+)$", run(program, ["policy", str(policy), "--listing", str(setup)], "").stdout, re.M)
        policy.write_text(f'policy = 1\nsilent = ["@loader"]\ngroup = [{{ name = "all", threads = {threads} }}]\n')
        told = run(program, ["policy", str(policy), str(setup)], "").stderr
        if f"{setup}:{at + 2}:5: error: " not in told or ": note: " in told:
            yield f"notes: of a policy of version 1 not just the error of a call is told: {told[:600]!r}"


# What is changed in the JSON form of a layout: the path to it, what stands there then, the line where it is told, and the words. First
# faults, then what may carry authority and is left out. A path that ends in `+` adds a member.
WRONG_JSON = [
    (["objects", 7, "object"], "Endpiont", 48, "there is no kind of object Endpiont"),
    (["objects", 7, "object"], 5, 48, "door needs an object, which is of one kind"),
    (["objects", 7, "name"], 5, 48, "the name of an object is a string"),
    (["objects", 7, "name"], "bell", 48, "bell is the name of two objects"),
    (["objects", 2, "object", "CNode", "size_bits"], None, 21, "server_cnode needs a number size_bits"),
    (["objects", 2, "object", "CNode", "size_bits"], "4", 21, "size_bits of server_cnode is a number of at most 64 bits"),
    (["objects", 2, "object", "CNode", "size_bits"], 15, 21, "server_cnode: a cnode has 1 to 14 bits here"),
    (["objects", 2, "object", "CNode", "slots"], {}, 21, "slots is a list"),
    (["objects", 2, "object", "CNode", "slots", 0], [1], 21, "each of the slots of server_cnode is a number, and a capability"),
    (["objects", 2, "object", "CNode", "slots", 0, 0], 16, 21, "server_cnode has no slot 16: it is too small"),
    (["objects", 2, "object", "CNode", "slots", 0, 0], 2, 21, "slot 2 of server_cnode is filled twice"),
    (["objects", 2, "object", "CNode", "slots", 0, 1], {"Untyped": {"object": 10}}, 21, "object 10 is in two slots; an untyped capability has no copies here"),
    (["objects", 2, "object", "CNode", "slots", 0, 1], "Endpoint", 21, "a capability of server_cnode is of one kind, with its object"),
    (["objects", 2, "object", "CNode", "slots", 0, 1, "Endpoint", "object"], 12, 21, "server_cnode: there is no object 12; there are 12, from 0 on"),
    (["objects", 2, "object", "CNode", "slots", 0, 1, "Endpoint", "object"], 4, 21, "a capability of server_cnode is Endpoint, and object 4 is none"),
    (["objects", 2, "object", "CNode", "slots", 0, 1, "Endpoint", "badge"], -1, 21, "badge of server_cnode is a number of at most 64 bits"),
    (["objects", 2, "object", "CNode", "slots", 0, 1, "Endpoint", "rights", "grant"], None, 21, "rights of server_cnode need grant, true or false"),
    (["objects", 0, "object", "Tcb", "slots", 1, 0], 10, 3, "a tcb has no slot 10"),
    (["objects", 0, "object", "Tcb", "slots", 0, 1], {"Tcb": {"object": 1}}, 3, "a cspace is a cnode, and client%5B0%5D is of the kind tcb"),
    (["objects", 0, "object", "Tcb", "extra", "resume"], 1, 3, "resume of server_tcb is true or false"),
    (["objects"], {}, 1, "a text in this form has a list objects"),
    (["untyped_covers", 0, "children", "end"], 13, 1, "one of untyped_covers goes from 11 to 13, and there are 12 objects"),
    (["untyped_covers"], [{"parent": 10, "children": {"start": 11, "end": 12}}] * 2, 1, "one of untyped_covers covers object 11, which another one covers"),
    (["untyped_covers", 0, "parent"], 12, 1, "one of untyped_covers: there is no object 12"),
    (["irqs", 0, "handler"], 12, 1, "irq 33: there is no object 12"),
    (["irqs", 0], 33, 1, "each of irqs has a number irq, and a handler"),
]
LEFT_OUT_OF_JSON = [
    (["objects", 2, "object", "CNode", "tint+"], 1, 21, "tint of server_cnode is left out"),
    (["objects", 4, "object"], {"Notification": {"bond": 1}}, 37, "bond of bell is left out"),
    (["objects", 7, "owner+"], 1, 48, "owner of door is left out"),
    (["objects", 2, "object", "CNode", "slots", 0, 1, "Endpoint", "guard+"], 1, 21, "guard of server_cnode is left out"),
    (["objects", 2, "object", "CNode", "slots", 0, 1, "Endpoint", "rights", "revoke+"], True, 21, "revoke of server_cnode is left out"),
    (["objects", 0, "object", "Tcb", "extra", "domain+"], 1, 3, "domain of server_tcb is left out"),
    (["domains+"], [], 1, "domains of the text is left out"),
    (["untyped_covers", 0, "by+"], 1, 1, "by of one of untyped_covers is left out"),
]


def changed_json(path, value, text):
    """Returns a layout in the JSON form with one member changed."""
    spec = json.loads(text)
    place = spec
    for step in path[:-1]:
        place = place[step]
    place[path[-1].rstrip("+") if isinstance(path[-1], str) else path[-1]] = value
    return spec


def laid_out_json(spec, lines):
    """Returns the text of a layout in the JSON form of which each object stands at one of these lines, and all else in the line 1."""
    rest = {name: value for name, value in spec.items() if name != "objects"}
    if not isinstance(spec["objects"], list):
        return json.dumps(spec)
    text = json.dumps(rest)[:-1] + ', "objects": ['
    for number, item in enumerate(spec["objects"]):
        text += "\n" * (lines[number] - 1 - text.count("\n")) + json.dumps(item) + ","
    return text.rstrip(",") + "]}"


def json_of(program, folder):
    """Yields what is wrong with layouts in the JSON form: with what is read of them, what is told of what they should not have, and
    what is left out of them."""
    text = (folder / "door.json").read_text()
    lines = [number for number, line in enumerate(text.splitlines(), 1) if line.startswith("    { \"name\"")]
    listed, wanted = run(program, ["import", "--listing", "-"], text), (folder / "door.listing").read_text()
    if sorted(listed.stdout.splitlines()) != sorted(wanted.splitlines()):
        yield f"door.json: its listing has other lines: {listed.stdout!r} {listed.stderr[:300]!r}"
    flows, wanted = run(program, ["import", "--flows", "--listing", "-"], text), (folder / "door.flows").read_text()
    if sorted(map(held, flows.stdout.splitlines())) != sorted(map(held, wanted.splitlines())):
        yield f"door.json: with --flows its listing has other lines: {flows.stdout!r} {flows.stderr[:300]!r}"
    cdl = run(program, ["import", "--cdl", "-"], text).stdout
    for more in ([], ["--flows"]):
        made, again = run(program, ["import", *more, "-"], text), run(program, ["import", *more, "-"], cdl)
        if made.returncode or run(program, ["check", "-"], made.stdout).returncode or tomllib.loads(made.stdout) != tomllib.loads(again.stdout):
            yield f"door.json: status {made.returncode}, or its capDL text has another set-up, with {more}"
        if "warning: the form names no machine: words of 64 bits are taken\n" not in made.stderr:
            yield f"door.json: nothing is said of the machine, with {more}: {made.stderr[:300]!r}"
    strict = run(program, ["import", "--flows", "--strict", "-"], text)
    if strict.returncode or strict.stdout != run(program, ["import", "--flows", "-"], text).stdout:
        yield f"door.json, strictly: {strict.returncode} {strict.stderr[:300]!r}"
    spec = json.loads(text)
    renamed = text.replace('"Tcb"', '"TCB"').replace('"CNode"', '"c_node"').replace('"ArmIrqHandler"', '"arm_irq_handler"')
    for other in ("\ufeff" + text, json.dumps(spec), "\n \t" + json.dumps(spec, indent=1), laid_out_json(spec, lines), renamed,
                  text.replace('{ "irq": 33, "handler": 9 }', "[33, 9]")):
        told = run(program, ["import", "--listing", "-"], other)
        if told.stdout != listed.stdout:
            yield f"door.json, written in another way: {other[:30]!r} {told.stdout[:100]!r} {told.stderr[:300]!r}"
    for path, value, line, said in WRONG_JSON:
        made = run(program, ["import", "-"], laid_out_json(changed_json(path, value, text), lines))
        if made.returncode != 2 or made.stdout != f"layout refused at {line}\n" or f":{line}:" not in made.stderr or said not in made.stderr:
            yield f"door.json with {value!r} at {path}: {made.returncode} {made.stdout[:50]!r} {made.stderr[:200]!r}"
    for path, value, line, said in LEFT_OUT_OF_JSON:
        taken, strict = [run(program, ["import", "--flows", *more, "-"], laid_out_json(changed_json(path, value, text), lines)) for more in ([], ["--strict"])]
        if taken.returncode or f"warning: {said}" not in taken.stderr or f":{line}:" not in taken.stderr:
            yield f"door.json with {value!r} at {path}: {taken.returncode} {taken.stderr[:200]!r}"
        if strict.returncode != 2 or strict.stdout != f"layout refused at {line}\n" or f"error: {said}" not in strict.stderr:
            yield f"door.json with {value!r} at {path}, strictly: {strict.returncode} {strict.stdout[:50]!r} {strict.stderr[:200]!r}"
    for old, new, line, said in (('"name": "bell",', '"name": "bell", "name": "bell",', 37, "a name is given twice in one object of JSON here"),
                                 ('"asid_slots": [', '"asid_slots": [], "asid_slots": [', 1, "a name is given twice in one object of JSON here"),
                                 ('"name": "bell",', '"name": "bell"', 37, "this is no JSON: ")):
        made = run(program, ["import", "-"], text.replace(old, new))
        if made.returncode != 2 or made.stdout != f"layout refused at {line}\n" or said not in made.stderr:
            yield f"door.json with {new!r}: {made.returncode} {made.stdout[:50]!r} {made.stderr[:200]!r}"
    yield from json_losses_of(program, spec)
    # capDL text can begin with a comment that begins as a text in the JSON form does.
    for comment in ("{- a comment -}", ' {- "quoted" }-}'):
        if run(program, ["import", "--listing", "-"], f"{comment}\n{WHOLE}").stdout != run(program, ["import", "--listing", "-"], WHOLE).stdout:
            yield f"capDL text behind {comment!r} is read in another way"


def json_losses_of(program, spec):
    """Yields the slots of a layout in the JSON form that could be lost: without one of them the listing with `--flows` is another one."""
    whole = run(program, ["import", "--flows", "--listing", "-"], json.dumps(spec)).stdout
    for number, item in enumerate(spec["objects"]):
        fields = [*item["object"].values()][0] if isinstance(item["object"], dict) else {}
        for place in range(len(fields.get("slots", []))):
            less = copy.deepcopy(spec)
            del [*less["objects"][number]["object"].values()][0]["slots"][place]
            if run(program, ["import", "--flows", "--listing", "-"], json.dumps(less)).stdout == whole:
                yield f"nothing is read of slot {place} of {item['name']} in the JSON form"


def in_json(objects, want, inactive, seed):
    """Returns a layout that was drawn in the JSON form, with slots and words written in one of several ways."""
    r = random.Random(f"{seed} json")
    numbers = {name: number for number, name in enumerate(objects)}
    words = {"cnode": ["CNode", "cnode"], "tcb": ["Tcb", "TCB"], "ep": ["Endpoint", "endpoint"], "ut": ["Untyped", "untyped"]}
    def cap(name, told):
        kind, fields = objects[name][0], {"object": numbers[name]}
        said = told.split()
        if kind == "ep":
            rights = {"write": said[3][0] == "w", "read": said[3][1] == "r", "grant": said[3][2] == "g", "grant_reply": said[3][3] == "p"}
            fields |= {"badge": int(said[1]), "rights": rights}
        elif kind == "cnode":
            fields |= {"guard": int(said[3]), "guard_size": int(said[5])}
        return {r.choice(words[kind]): fields}
    def slots(holder):
        entries = [(slot, cap(*held)) for (its, slot), held in want.items() if its == holder]
        return [[slot, it] if r.random() < 0.5 else {"slot": slot, "cap": it} for slot, it in entries]
    made = []
    for name, (kind, bits) in objects.items():
        fields = {"cnode": {"size_bits": bits, "slots": slots(name)}, "ut": {"size_bits": bits, "paddr": None},
                  "tcb": {"slots": slots(name), "extra": {"prio": 1, "resume": name not in inactive}}}.get(kind)
        word = r.choice(words[kind])
        made.append({"name": name, "object": {word: fields} if fields else word})
    return json.dumps({"objects": made, "irqs": [], "untyped_covers": []}, indent=r.choice([None, 1]))


def random_json_of(program, seed, count):
    """Yields which random layouts in the JSON form are not imported, or have another listing or another end than was drawn."""
    for number in range(count):
        text, objects, want, inactive, size = layout(f"{seed} {number}")
        if size != 32:
            continue
        spec = in_json(objects, want, inactive, f"{seed} {number}")
        made, listed = run(program, ["import"], spec), run(program, ["import", "--listing"], spec)
        if made.returncode:
            yield f"layout {number} of {seed} in the JSON form: {made.returncode} {made.stderr[-200:]}"
            continue
        report = run(program, ["check", "-"], made.stdout).stdout
        yield from (f"layout {number} of {seed} in the JSON form: {it}" for it in differences(report, made.stdout, objects, want, inactive, size))
        if sorted(listed.stdout.splitlines()) != sorted(listing("", objects, want, inactive)):
            yield f"layout {number} of {seed} in the JSON form: its listing has other lines"


def domains_of(program):
    """Yields what is wrong with the most domains that a system has, and with one more."""
    domains = [f'<protection_domain name="d{i}" priority="9">\n</protection_domain>\n' for i in range(64)]
    made, more = [run(program, ["import", "--plain", "--listing", "-"], f"<system>\n{''.join(domains[:count])}</system>\n") for count in (63, 64)]
    if made.returncode or "\nd62_tcb.cspace cnode d62_cnode radix 8 guard 0 size 56\n" not in made.stdout:
        yield f"63 domains: {made.returncode} {made.stderr[:200]!r}"
    if more.returncode != 2 or more.stdout != "layout refused at 128\n" or "a system has 63 protection domains at most" not in more.stderr:
        yield f"64 domains: {more.returncode} {more.stdout[:50]!r} {more.stderr[:200]!r}"


def faults_of(program, folder):
    """Yields which layouts of a folder are not imported, or not refused at their lines."""
    for path in sorted(folder.glob("*.cdl")):
        made = run(program, ["import", str(path)], "")
        checked = run(program, ["check", "-"], made.stdout)
        from_input = run(program, ["import", "-"], path.read_text()).stdout
        if made.returncode or checked.returncode or from_input.replace("\nformat = 2\n", f'\n# layout "{path}"\nformat = 2\n', 1) != made.stdout or from_input == made.stdout:
            yield f"{path.name}: status {made.returncode}, and of its set-up {checked.returncode}"
        yield from wrong_comments(path, made.stdout)
        listed = run(program, ["import", "--listing", str(path)], "").stdout
        if sorted(listed.splitlines()) != sorted(path.with_suffix(".listing").read_text().splitlines()):
            yield f"{path.name}: its listing has other lines"
        if not made.stdout.startswith("".join(f"# {line}\n" for line in listed.splitlines()) + "#\n"):
            yield f"{path.name}: its set-up begins with another listing"
    yield from faults_by_name(program, folder)
    for path in sorted(it for it in (folder / "wrong").iterdir() if it.suffix in (".cdl", ".system")):
        made = run(program, ["import", str(path)], "")
        line = FAULTS[path.stem]
        if made.returncode != 2 or made.stdout != f"layout refused at {line}\n" or f"{path.name}:{line}:" not in made.stderr:
            yield f"{path.name}: {made.returncode} {made.stdout!r} {made.stderr[:200]!r}"
        told = [int(it) for it in re.findall(rf"{path.name}:(\d+):\d+: error: ", made.stderr)]
        if path.name in SEVERAL and told != SEVERAL[path.name]:
            yield f"{path.name}: faults in the lines {told}"


def faults_of_systems(program, folder):
    """Yields which `.system` files of a folder do not come to the set-ups of the layouts that were made of them by another program, and
    what is not told of them with its line: what stands above a call, what is assumed, and what is left out."""
    for path in sorted(folder.glob("*.system")):
        for flows, of_text in ((["--plain"], []), ([], ["--flows"]), (["--flows"], ["--flows"])):
            made, wanted = [run(program, ["import", *words, str(it)], "")
                            for it, words in ((path, [*flows, *LEAST]), (folder / f"{path.stem}_from_system.cdl", of_text))]
            if made.returncode or tomllib.loads(made.stdout) != tomllib.loads(wanted.stdout):
                yield f"{path.name}: status {made.returncode}, or not the set-up of its layout, with {flows}"
            if "Microkit's tool is assumed" not in made.stderr:
                yield f"{path.name}: nothing is assumed, with {flows}"
            if ("--plain leaves out memory regions, notifications and interrupts" in made.stderr) != (flows == ["--plain"]):
                yield f"{path.name}: what --plain leaves out is told with {flows}: {made.stderr}"
    told, marked = [run(program, ["import", "--plain", "-"], mark + (folder / "hello.system").read_text()).stdout for mark in ("", "\ufeff")]
    if told != marked:
        yield "hello.system: it is another one behind a byte order mark"
    for said in ("  # 27: hello_cnode[75] ", "  # 7: serial_cnode[2] ", "  # 3: monitor_cnode[1] "):
        if said not in told:
            yield f"hello.system: no call with {said!r}"
    text = (folder / "hello.system").read_text()
    text = text.replace('<irq irq="33"', '<irq irg="1" irq="33"').replace("    <channel>\n", "    <chanel>\n<end pd='serial' />\n</chanel><channel>\n", 1)
    made = run(program, ["import", "-"], text)
    for said in ("irg of this irq is left out; did you mean irq?", ":11:14", "chanel is left out here, with all that is in it; did you mean channel?", ":22:6"):
        if made.returncode or said not in made.stderr:
            yield f"hello.system with more: status {made.returncode}, and nothing of {said!r}"


def wrong_comments(path, text):
    """Yields which calls of a set-up do not lead back to the layout: the line that the comment behind one has declares or fills what it
    says there."""
    lines, calls = path.read_text().splitlines(), re.findall(r"^    \{ .* \},  # (.*)$", text, re.M)
    if len(calls) != len(tomllib.loads(text)["call"]) or calls[-1] != "the loader is done":
        yield f"{path.name}: {len(calls)} calls with comments, the last one with {calls[-1]!r}"
    for comment in calls[:-1]:
        number, name, _, slot = re.fullmatch(r"(\d+): ([\w.@/-]+)(\[\d+\])?( .*)?", comment).groups()
        held = re.fullmatch(r"(?: cspace)? = ([\w.@/-]+)(\[\d+\])?( .*)?", slot or "")
        if (held[1] if held else name) not in lines[int(number) - 1] and ".." not in lines[int(number) - 1]:
            yield f"{path.name}: line {number} is not of {comment!r}"


def texts_of(program, folder):
    """Yields which layouts do not become capDL text from which the same set-up is made, and which capDL text becomes another one."""
    for path in sorted((*folder.glob("*.system"), *folder.glob("hardware/*.system"))):
        text = run(program, ["import", "--cdl", *LEAST, str(path)], "")
        for of_file, of_text in (([], ["--flows"]), (["--plain"], [])):
            made, again = run(program, ["import", *of_file, *LEAST, str(path)], ""), run(program, ["import", *of_text, "-"], text.stdout)
            if text.returncode or made.returncode != again.returncode or again.returncode == 0 and tomllib.loads(made.stdout) != tomllib.loads(again.stdout):
                yield f"{path.name}: its capDL text has another set-up: {text.returncode} {made.returncode} {again.returncode} {again.stderr[:200]!r}"
    for path in sorted(folder.glob("*.cdl")):
        made = run(program, ["import", "--cdl", str(path)], "")
        if made.returncode or made.stdout != path.read_text():
            yield f"{path.name}: status {made.returncode}, or not its own text"
    for path in sorted((*folder.glob("wrong/*.cdl"), *folder.glob("wrong/*.system"))):
        made, text = [run(program, ["import", *words, str(path)], "") for words in ([], ["--cdl"])]
        if (made.returncode, made.stdout) != (text.returncode, text.stdout):
            yield f"{path.name}: with --cdl status {text.returncode} {text.stdout[:50]!r}"
    strict = run(program, ["import", "--cdl", "--strict", str(folder / "hello.system")], "")
    if (strict.returncode, strict.stdout) != (2, "layout refused at 3\n"):
        yield f"hello.system with --cdl, strictly: {strict.returncode} {strict.stdout[:50]!r}"
    with tempfile.TemporaryDirectory() as room:
        path = pathlib.Path(room, 'a "b"\n]\\.cdl')
        path.write_text((folder / "twelve.cdl").read_text())
        made = run(program, ["import", str(path)], "").stdout
        told = f"{room}/a \"b\"?]\\.cdl".replace("\\", "\\\\").replace('"', '\\"')
        if run(program, ["check", "-"], made).returncode or made.count("# layout ") != 1 or f'\n# layout "{told}"\nformat = 2\n' not in made:
            yield f"a layout in a file of a strange name: {made[:300]!r}"


def faults_by_name(program, folder):
    """Yields what is wrong with the audits of two versions of a layout by names: the second has a client more, and nothing else differs."""
    one, more = [run(program, ["audit", "--names", "--without", "loader", "-"], run(program, ["import", str(folder / f"{name}.cdl")], "").stdout).stdout.splitlines()
                 for name in ("file_server", "file_server_5")]
    news = ["thread @tcb_client_e ready", "  reach @tcb_client_e 1 slot @cnode_client_e[1] endpoint @fs_ep badge 5 rights w--p",
            "  reach @tcb_client_e 2 slot @cnode_client_e[2] tcb @tcb_client_e", "channel @tcb_client_e 1 -> @fs_ep badge 5 rights w--p -> @tcb_fs 1"]
    told = [line for line in difflib.ndiff(one[1:], more[1:]) if line[0] in "+-"]
    if not one or told != [f"+ {line}" for line in news]:
        yield f"file_server by names: {told}"
    if one != (folder / "file_server.names").read_text().splitlines():
        yield f"file_server by names: {one}"


def main(program, folder, seed, count, shared=None):
    folder = pathlib.Path(folder)
    wrong = [*faults_of(program, folder), *names_of(program, folder / "names"),
             *shared_of(program, folder / "hardware"), *spellings_of(program, folder / "spellings"), *losses_of(program, folder), *shares_of(program, seed, int(shared or int(count) // 10)),
             *rows_of(program), *random_rows_of(program, seed, int(count) // 5), *notes_of(program, folder), *flows_of(program, folder), *faults_of_systems(program, folder), *texts_of(program, folder), *strict_of(program, folder), *domains_of(program),
             *json_of(program, folder / "json"), *random_json_of(program, seed, int(count) // 5)]
    changed = unseen = 0
    for number in range(int(count)):
        text, *said = layout(f"{seed} {number}")
        made = run(program, ["import"], text)
        if made.returncode:
            wrong.append(f"layout {number} of {seed}: {made.returncode} {made.stderr[-200:]}")
            continue
        report = run(program, ["check", "-"], made.stdout).stdout
        wrong += [f"layout {number} of {seed}: {it}" for it in differences(report, made.stdout, *said)]
        if number % 10 == 3:
            listed = run(program, ["import", "--listing"], text).stdout.splitlines()
            wrong += [f"layout {number} of {seed}: its listing has other lines"] * (sorted(listed) != sorted(listing(text, *said[:3])))
        lines = made.stdout.splitlines(keepends=True)
        calls = [at for at, line in enumerate(lines) if line.startswith("    { thread = ")]
        if number % 10 == 5:
            flows = run(program, ["import", "--flows"], text)
            status = flows.returncode or run(program, ["check", "-"], flows.stdout).returncode
            wrong += [f"layout {number} of {seed}, with --flows: {status} {flows.stderr[-200:]}"] if status else []
        if number % 10 == 0 and len(calls) > 3:
            # Without one of its calls the end has to be another one.
            out = calls[random.Random(number).randrange(1, len(calls) - 1)]
            report = run(program, ["check", "-"], "".join(lines[:out] + lines[out + 1 :])).stdout
            changed += 1
            unseen += not list(differences(report, made.stdout, *said))
    for line in wrong[:20]:
        print(line)
    print(f"imports: {count} random layouts, {len(wrong)} faults; {changed} set-ups without a call, {unseen} not seen")
    return bool(wrong) or unseen > 0


if __name__ == "__main__":
    sys.exit(main(*sys.argv[1:]))
