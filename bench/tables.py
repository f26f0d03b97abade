"""The tables of docs/performance.md, between two marks, from the figures of docs/performance.csv."""

from functools import partial

import commands
import directions
import explorations
import shared
from spin import beside

BEGIN, END = "<!-- figures: bench/draw.py writes what stands from here on -->", "<!-- end of the figures -->"

PARTS = ["reading", "booting", "running", "reporting"]
HINTS = "plain Rust with hints"

# How many slots the revocations of one run clear.
ALL_SLOTS = 16384

KIB_IN_MB = 1024e-6


def shown(number):
    """A number with three digits that count."""
    if number >= 100:
        return f"{number:,.0f}"
    return f"{number:.3g}" if number < 1 else f"{number:.1f}"


def ratio(proved, plain):
    return f"{proved / plain:.2f}" if proved is not None and plain else ""


def table(head, lines):
    """A table, or nothing where it has no line."""
    if not lines:
        return ""
    rows = ["| " + " | ".join(line) + " |" for line in [head, *lines]]
    return "\n".join([rows[0], "|" + "---|" * len(head), *rows[1:]])


class Figures:
    def __init__(self, rows):
        self.by_key = {(row["subject"], row["size"], row["program"]): row for row in rows}
        self.sizes = {}
        for row in rows:
            sizes = self.sizes.setdefault(row["subject"], [])
            if row["size"] not in sizes:
                sizes.append(row["size"])

    def of(self, subject, size, program, field):
        return self.by_key.get((subject, size, program), {}).get(field)

    def pair(self, subject, size, field, plain="plain Rust"):
        return self.of(subject, size, "proved", field), self.of(subject, size, plain, field)

    def grown(self):
        """The subjects of which whole runs were measured beside plain Rust, at several sizes."""
        return [s for s, sizes in self.sizes.items() if self.of(s, sizes[-1], "plain Rust", "peak_kib") is not None]

    def small(self):
        """The subjects of which the time of one step was measured."""
        return [s for s, sizes in self.sizes.items() if sizes == [1]]

    def revocations(self):
        return [subject for subject in self.sizes if subject.startswith("revocations")]


def costs(figures, subject, size):
    """The figures of a whole run, proved and plain with their ratio: millions of instructions, milliseconds and MB."""
    for field, scale in (("instructions", 1e-6), ("seconds", 1e3), ("peak_kib", KIB_IN_MB)):
        proved, plain = figures.pair(subject, size, field)
        yield from (shown(proved * scale), shown(plain * scale), ratio(proved, plain))


def largest(figures):
    head = ["subject, largest size"]
    for cost in ("10⁶ instructions", "ms", "peak MB"):
        head += [f"{cost}, proved", "plain", "ratio"]
    lines = []
    for subject in figures.grown():
        size = figures.sizes[subject][-1]
        lines.append([f"{subject}, {size:,}", *costs(figures, subject, size)])
    return table(head, lines)


def growth(figures):
    head = ["ratio of instructions, of all and of the parts", "at the four sizes", *PARTS]
    lines = []
    for subject in figures.grown():
        sizes = figures.sizes[subject]
        ratios = ", ".join(ratio(*figures.pair(subject, size, "instructions")) for size in sizes)
        parts = [ratio(*figures.pair(subject, sizes[-1], part)) for part in PARTS]
        lines.append([subject, ratios, *parts])
    return table(head, lines)


def line_of_one(figures, name, subject, size, field, scale):
    """The figures of one of what a run has many of, beside plain Rust with and without hints."""
    proved, plain, hinted = (figures.of(subject, size, program, field) for program in ("proved", "plain Rust", HINTS))
    line = [name, shown(proved * scale), shown(plain * scale), ratio(proved, plain)]
    return line + ([shown(hinted * scale), ratio(proved, hinted)] if hinted else ["", ""])


def cleared(figures):
    """Each forest and size of revocations, and the name of one slot that they clear."""
    for subject in figures.revocations():
        for size in (figures.sizes[subject][0], figures.sizes[subject][-1]):
            yield subject, size, f"slot cleared by a {subject.replace('revocations, ', '')} revocation of {size:,}"


def shared_ones(figures):
    """Each call and look of a kernel that clients share, at its least and its largest size, with its name."""
    for subject, unit in shared.SIZES.items():
        sizes = figures.sizes.get(subject, [])
        for size in sizes[:1] + sizes[-1:]:
            yield subject, size, f"{subject}, {unit}: {size:,}"


def times_of_one(figures):
    head = ["nanoseconds of one", "proved", "plain Rust", "ratio", "with the same hints", "ratio"]
    lines = [line_of_one(figures, subject, subject, 1, "seconds", 1e9) for subject in figures.small()]
    lines += [line_of_one(figures, name, s, size, "seconds", 1e9 / ALL_SLOTS) for s, size, name in cleared(figures)]
    lines += [line_of_one(figures, name, s, size, "seconds", 1e9) for s, size, name in shared_ones(figures)]
    return table(head, lines)


def instructions_of_one(figures):
    head = ["instructions of one", "proved", "plain Rust", "ratio", "with the same hints", "ratio"]
    lines = []
    for subject in (subject for subject in figures.grown() if subject.startswith("steps")):
        size = figures.sizes[subject][-1]
        lines.append(line_of_one(figures, subject.replace("steps", "step"), subject, size, "running", 1 / size))
    lines += [line_of_one(figures, name, s, size, "running", 1 / ALL_SLOTS) for s, size, name in cleared(figures)]
    counted = [one for one in shared_ones(figures) if figures.of(one[0], one[1], "proved", "running")]
    lines += [line_of_one(figures, name, s, size, "running", 1) for s, size, name in counted]
    return table(head, lines)


def explored(figures):
    """The figures of explorations, none where there are none."""
    head = ["explorations, steps", "ms", "µs a step", "peak MB"]
    lines = []
    for size in figures.sizes.get(explorations.SUBJECT, []):
        seconds, peak = (figures.of(explorations.SUBJECT, size, "proved", field) for field in ("seconds", "peak_kib"))
        lines.append([f"{size:,}", shown(seconds * 1e3), shown(seconds * 1e6 / size), shown(peak * KIB_IN_MB)])
    return table(head, lines)


AUDITS = {
    "audits": "what threads name, and who can send to whom",
    "audits, revokes": "what each revoke would do",
    "audits, ever": "what threads can never get, by `ever`",
}


def audits(figures):
    """What an audit of a full memory takes, in the instructions of the report of `check` for the same set-up."""
    lines = []
    for subject, name in AUDITS.items():
        sizes = figures.sizes.get(subject, [])
        if not sizes:
            continue
        pairs = [(figures.of(subject, size, "proved", "reporting"), figures.of("memories", size, "proved", "reporting")) for size in sizes]
        lines.append([name, ", ".join(ratio(*pair) for pair in pairs)])
    return table(["audit of a full memory, ratio of instructions to the report", "at the four sizes"], lines)


def in_turn(texts):
    """The texts of several sizes; nothing where there is none."""
    return " / ".join(text or "-" for text in texts) if any(texts) else ""


def by_command(figures, head, most, cell):
    """A line for each direction in which set-ups grow, with at most so many of its largest sizes, and a column for each
    command."""
    lines = []
    for direction, (sizes, _) in directions.DIRECTIONS.items():
        sizes = sizes[-most:]
        subjects = [commands.subject(direction, command) for command in commands.COMMANDS]
        cells = [in_turn([cell(figures, subject, size) for size in sizes]) for subject in subjects]
        if any(cells):
            lines.append([f"{direction}: {in_turn([f'{size:,}' for size in sizes])}", *cells])
    return table([head, *(f"`{command}`" for command in commands.COMMANDS)], lines)


def milliseconds(figures, subject, size):
    """The time of a run, or the limit that ended it; nothing where it was not made."""
    seconds, limit = (figures.of(subject, size, "proved", field) for field in ("seconds", "limit"))
    return f"over {limit}" if limit else shown(seconds * 1e3) if seconds is not None else ""


def kilobytes(figures, subject, size):
    written = figures.of(subject, size, "proved", "written")
    return "" if written is None else shown(written / 1e3)


def times_by_command(figures):
    return by_command(figures, "ms", 3, milliseconds)


def texts_by_command(figures):
    return by_command(figures, "kB of text", 1, kilobytes)


def in_memories(figures):
    head = [f"{explorations.ASKED.name}, bytes of the memory", "ms", "µs a step", "peak MB"]
    lines = []
    for size in figures.sizes.get(explorations.MEMORIES, []):
        of = partial(figures.of, explorations.MEMORIES, size, "proved")
        seconds, steps, peak = (of(field) for field in ("seconds", "steps", "peak_kib"))
        lines.append([f"{size:,}", shown(seconds * 1e3), shown(seconds * 1e6 / steps), shown(peak * KIB_IN_MB)])
    return table(head, lines)


def kept(figures):
    """What explorations of many states take, or the limit that ended them."""
    head = [f"{explorations.ENDLESS.name}, states that are kept", "ms", "peak MB", "1 GB has room for, states"]
    lines = []
    for size in figures.sizes.get(explorations.KEPT, []):
        line = [f"{size:,}", milliseconds(figures, explorations.KEPT, size)]
        states, peak = (figures.of(explorations.KEPT, size, "proved", field) for field in ("states", "peak_kib"))
        room = [shown(peak * KIB_IN_MB), f"{round(states / (peak * KIB_IN_MB) * 1e3, -3):,.0f}"] if peak else ["", ""]
        lines.append(line + room)
    return table(head, lines)


def apart(figures):
    """Clients that share nothing, with and without `--ends`."""
    lines = []
    for size in figures.sizes.get(explorations.APART, []):
        line = [str(size)]
        for program in ("proved", explorations.ENDS):
            states, seconds = (figures.of(explorations.APART, size, program, field) for field in ("states", "seconds"))
            line += [f"{states:,}", shown(seconds * 1e3)]
        lines.append(line)
    calls = explorations.APART_CALLS
    return table([f"clients that share nothing, {calls} calls each", "states", "ms", "with `--ends`", "ms"], lines)


def beside_spin(figures):
    """The same questions by `explore` and by SPIN."""
    head = ["question", "states", "steps"]
    for program in ("explore", "SPIN"):
        head += [f"ms, {program}", "µs a step", "peak MB"]
    head += ["ms to make SPIN's verifier", "states with its reduction", "states as it comes"]
    lines = []
    for subject in (subject for subject in figures.sizes if subject.startswith(beside.SUBJECT)):
        (size,) = figures.sizes[subject]
        steps = figures.of(subject, size, "proved", "steps")
        line = [subject.removeprefix(beside.SUBJECT), f"{size:,}", f"{steps:,}"]
        for program in ("proved", "SPIN"):
            seconds, peak = (figures.of(subject, size, program, field) for field in ("seconds", "peak_kib"))
            line += [shown(seconds * 1e3), shown(seconds * 1e6 / steps), shown(peak * KIB_IN_MB)]
        line.append(shown(figures.of(subject, size, beside.MAKING, "seconds") * 1e3))
        lines.append(line + [f"{figures.of(subject, size, way, 'states'):,}" for way in list(beside.WAYS)[1:]])
    return table(head, lines)


TABLES = [
    largest,
    growth,
    audits,
    times_by_command,
    texts_by_command,
    explored,
    in_memories,
    kept,
    apart,
    beside_spin,
    times_of_one,
    instructions_of_one,
]


def write(notes, rows, path):
    figures = Figures(rows)
    drawn = [table_of(figures) for table_of in TABLES]
    text = "\n\n".join([f"{notes[0].capitalize()}; {notes[1]}.", *filter(None, drawn)])
    before, rest = path.read_text().split(BEGIN)
    path.write_text(f"{before}{BEGIN}\n\n{text}\n\n{END}{rest.split(END)[1]}")
