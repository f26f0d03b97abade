#!/usr/bin/env python3
"""new_set_ups.py PROGRAM: set-ups that `new` writes, of many sizes.

Each is read by Python's own reader of TOML: it has the sizes and the regions that were asked for, its names stand for the
addresses and the slots that docs/formats.md gives, and its report has each thread and each slot at them. Sizes for which no
set-up is there give status 4 with nothing written."""
import itertools
import re
import sys
import tomllib

from program import answer, run

# Of each profile: the bits of a slot and of a thread control block. An endpoint has as many bits in both.
PROFILES = {"wide": (5, 11), "narrow": (4, 10)}
ENDPOINT_BITS = 4
REGIONS = ([], [(0x8000, 12)], [(0x8000, 12), (0xA000, 10), (0xFFF0, 4)])
WRONG = (["--threads", "0"], ["--threads", "65"], ["--threads", "4294967297"], ["--endpoints", "257"], ["--untyped", "32768"],
         ["--untyped", "32768:x"], ["--untyped", ""], ["--untyped", "0:12"], ["--untyped", "32769:12"], ["--untyped", "1048576:12"],
         ["--untyped", "32768:12,32768:12"], ["--profile", "Wide"], ["--profile", "mcs"], ["--untyped", "32768:12,"])


def names_wanted(profile, radix, threads, endpoints, regions):
    """The names, by the layout of the boot."""
    slot_bits, tcb_bits = PROFILES[profile]
    first = -(-(1 << (slot_bits + radix)) // (1 << tcb_bits)) << tcb_bits
    names = {f"thread_{i}": first + (i << tcb_bits) for i in range(threads)}
    names |= {f"tcb_{i}": 2 + i for i in range(threads)}
    names |= {f"ep_{i}": 2 + threads + i for i in range(endpoints)}
    return names | {f"untyped_{i}": 2 + threads + endpoints + i for i in range(len(regions))}


def has_room(profile, radix, threads, endpoints, regions):
    """Whether the objects of the boot end before the regions begin, and the root CNode has a slot for each."""
    slot_bits, tcb_bits = PROFILES[profile]
    first = -(-(1 << (slot_bits + radix)) // (1 << tcb_bits)) << tcb_bits
    end = first + (threads << tcb_bits) + (endpoints << ENDPOINT_BITS)
    return 2 + threads + endpoints + len(regions) <= 1 << radix and all(end <= base for base, _ in regions)


def radix_wanted(profile, threads, endpoints, regions):
    """The radix of the root CNode: the least one from 4 on with which half of the slots are free, or 12; where that leaves
    no room, the greatest one that does; None where none does."""
    slots = 2 * (2 + threads + endpoints + len(regions))
    usual = next(radix for radix in range(4, 13) if slots <= 1 << radix or radix == 12)
    radixes = (usual, *range(12, 0, -1))
    return next((radix for radix in radixes if has_room(profile, radix, threads, endpoints, regions)), None)


def faults(program, profile, threads, endpoints, regions):
    words = ["new", "--profile", profile, "--threads", str(threads), "--endpoints", str(endpoints)]
    words += ["--untyped", ",".join(f"{base}:{bits}" for base, bits in regions)] if regions else []
    status, made, error = answer(program, *words)
    radix = radix_wanted(profile, threads, endpoints, regions)
    if radix is None:
        return [] if (status, made) == (4, "") else [f"status {status}, and there is no room"]
    if status or error:
        return [f"status {status}, {error}"]
    read = tomllib.loads(made)
    wanted = {"format": 2, "profile": profile, "root_radix": radix, "threads": threads, "endpoints": endpoints,
              "names": names_wanted(profile, radix, threads, endpoints, regions)}
    found = [f"{key}: {read.get(key)}, wanted {value}" for key, value in wanted.items() if read.get(key) != value]
    if [(it["base"], it["bits"]) for it in read.get("untyped", [])] != regions:
        found.append("other regions")
    checked, report = run(program, "check", "-", text=made)
    told = {int(it) for it in re.findall(r"^thread (\d+)", report, re.M)}
    if checked or told != {wanted["names"][f"thread_{i}"] for i in range(threads)}:
        found.append(f"check: status {checked}, threads {sorted(told)}")
    if "refused" in report:
        found.append("its call is refused")
    return found


def main():
    program, wrong = sys.argv[1], 0
    sizes = list(itertools.product(PROFILES, (1, 2, 3, 8, 14), (0, 1, 5, 40), REGIONS))
    for size in sizes:
        for fault in faults(program, *size):
            wrong += 1
            print(f"new of {size}: {fault}")
    for words in WRONG:
        status, made, error = answer(program, "new", *words)
        if status != 4 or made or error.count("\n") != 2:
            wrong += 1
            print(f"new {words}: status {status}, {made}, {error}")
    for words in ([], ["--threads", "64"], ["--endpoints", "256"]):
        status, made = run(program, "new", *words)
        if status or run(program, "check", "-", text=made)[0]:
            wrong += 1
            print(f"new {words}: status {status}")
    print(f"{len(sizes)} new set-ups as asked for and {len(WRONG)} wrong sizes, {wrong} faults")
    return 1 if wrong else 0


if __name__ == "__main__":
    sys.exit(main())
