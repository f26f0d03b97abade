"""draw.py: draws the figures of docs/performance.csv as docs/pictures/*.svg, with gnuplot, and writes the tables of
docs/performance.md. The same figures give the same pictures, byte for byte."""

import re
import subprocess

import explorations
import figures
import tables

PICTURES = figures.PATH.parent / "pictures"

# Each picture: its title, what its sizes are, its subjects with the names of their lines, and the part that is drawn
# beside the whole.
SUBJECTS = {
    "calls": (
        "sel4sim check of set-ups with many calls",
        "calls",
        {"calls, inline tables": "inline tables", "calls, headers": "headers"},
        "reading",
    ),
    "memories": (
        "sel4sim check of memories whose slots are all full",
        "bytes of memory",
        {"memories": ""},
        "reporting",
    ),
    "queues": ("sel4sim check of queues, with sends and cancels", "threads", {"queues": ""}, "running"),
    "forests": (
        "sel4sim check of forests, with copies and revokes",
        "slots",
        {"forests, wide": "wide", "forests, deep": "deep"},
        "running",
    ),
    "steps": (
        "the kernel's steps, with all fifteen operations",
        "steps",
        {"steps, replies dropped": "replies dropped", "steps, replies kept": "replies kept"},
        "running",
    ),
}

# The picture of kernels that clients share: what the sizes are, the subjects, the figures and the title of each panel.
CALLS = {"call that a book takes": "book", "call of a client": "client"}
SHARED = [
    ("entries", CALLS, "running", "instructions of a call"),
    ("entries", CALLS, "seconds", "seconds of a call"),
    ("clients that look", {"look": ""}, "seconds", "seconds of a look, of all clients together"),
    ("clients that look", {"call beside looks": ""}, "seconds", "seconds of a call meanwhile"),
]

# The picture of explorations, which have no plain Rust beside them.
EXPLORED = [("seconds", "processor seconds"), ("peak_kib", "peak memory, MB")]

PARTS = {"reading": "the reading of the set-up", "running": "the calls", "reporting": "the report"}

COLOURS = {"proved": "#1f5fa8", "plain Rust": "#d9730d"}

# For the first and the second subject of a picture: how its lines are dashed, and the form of their points.
STYLES = [("1", "7"), ("2", "4")]

BYTES_IN_KIB = 1024

# How far the axis of the sizes goes on at both ends.
MARGIN = 1.8


def points(rows, subject, program, field):
    """The sizes and the figures of a line; none where the field was not measured."""
    of = [row for row in rows if (row["subject"], row["program"]) == (subject, program) and row[field] is not None]
    scale = BYTES_IN_KIB / 1e6 if field == "peak_kib" else 1
    return [(row["size"], row[field] * scale) for row in of]


def lines_of(rows, subjects, field):
    """The gnuplot words of each line of a panel, and the text of its points."""
    for (subject, name), (dash, form) in zip(subjects.items(), STYLES):
        for program, colour in COLOURS.items():
            data = points(rows, subject, program, field)
            if data:
                title = f"{program}, {name}" if name else program
                style = f'with linespoints lc rgb "{colour}" lw 1.5 dt {dash} pt {form} ps 0.5 title "{title}"'
                yield f"'-' {style}", "".join(f"{size} {figure:g}\n" for size, figure in data) + "e\n"


def panel(rows, subjects, field, title):
    """One of the four drawings of a picture; the first says what the lines are."""
    words, data = zip(*lines_of(rows, subjects, field))
    return f'set title "{title}"\nplot {", ".join(words)}\n{"".join(data)}unset key\n'


def axis(rows, subjects, sizes):
    """The axis of the sizes, of all that were measured of the subjects."""
    there = sorted({row["size"] for row in rows if row["subject"] in subjects})
    marks = ", ".join(f'"{size:,}" {size}' for size in there)
    span = f"[{there[0] / MARGIN}:{there[-1] * MARGIN}]"
    return f'set xrange {span}\nset xtics ({marks})\nset xlabel "{sizes}"\n'


def head_of(title, height=620, layout="2,2", margins="0.09,0.98,0.12,0.88"):
    return [
        f'set terminal svg size 800,{height} font "sans-serif,11" background "#ffffff"',
        f'set multiplot layout {layout} title "{title}" margins {margins} spacing 0.10,0.15',
        "set logscale xy",
        'set format y "10^{%T}"',
        "set tics nomirror",
        "set mxtics 1",
        "set mytics 1",
        'set grid lc rgb "#dddddd"',
        "set key top left reverse Left samplen 2",
    ]


def caption_of(notes):
    return f'set label "{"; ".join(notes)}" at screen 0.5,0.02 center noenhanced font ",9"\n'


def script(rows, notes, name):
    title, sizes, subjects, part = SUBJECTS[name]
    panels = {
        "instructions": "instructions",
        part: f"instructions of {PARTS[part]} alone",
        "seconds": "processor seconds",
        "peak_kib": "peak memory, MB",
    }
    head = "\n".join(head_of(title)) + "\n" + axis(rows, subjects, sizes)
    drawn = [panel(rows, subjects, field, text) for field, text in panels.items()]
    return head + "".join([*drawn[:-1], caption_of(notes), drawn[-1]])


def shared_script(rows, notes):
    """The picture of kernels that clients share, whose panels have axes of their own."""
    head = "\n".join(head_of("a kernel that clients share")) + "\n"
    drawn = [axis(rows, of, sizes) + panel(rows, of, field, title) for sizes, of, field, title in SHARED]
    return head + "".join([*drawn[:-1], caption_of(notes), drawn[-1]])


def explored_script(rows, notes):
    """The picture of explorations: a row of panels."""
    head = head_of("sel4sim explore of three clients with mixed calls", 340, "1,2", "0.09,0.98,0.22,0.80")
    subjects = {explorations.SUBJECT: ""}
    drawn = [panel(rows, subjects, field, title) for field, title in EXPLORED]
    whole = "\n".join(head) + "\n" + axis(rows, subjects, "steps from a state to one")
    return whole + "".join([*drawn[:-1], caption_of(notes), drawn[-1]])


def compact(svg):
    """The same picture without the groups in which nothing is drawn, and without spaces at the ends of lines."""
    groups = re.compile(r"<g [^>]*>\s*</g>\n?")
    while groups.search(svg):
        svg = groups.sub("", svg)
    return "".join(line.strip() + "\n" for line in svg.splitlines() if line.strip())


def draw(name, words):
    drawn = subprocess.run(["gnuplot"], input=words, check=True, stdout=subprocess.PIPE, text=True)
    (PICTURES / f"{name}.svg").write_text(compact(drawn.stdout))


def main():
    notes, rows = figures.read()
    PICTURES.mkdir(exist_ok=True)
    for name in SUBJECTS:
        draw(name, script(rows, notes, name))
    draw("shared", shared_script(rows, notes))
    draw("explorations", explored_script(rows, notes))
    tables.write(notes, rows, figures.PATH.parent / "performance.md")


main()
