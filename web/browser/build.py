#!/usr/bin/env python3
"""build.py [--check | --draft FILE]: writes web/site/sel4sim.html, the proved program as a page of one file.

The page has in it the program's WebAssembly module (module.py), the page of a trace (web/page/join.py), the editor
CodeMirror as Debian packs it, the worked set-ups, and the modules in source/, joined as the page of a trace is. The
scripts stand in it as they are; the WebAssembly module is packed, and so are all texts that the scripts read. It
tells the last commit of what it is made of, and the toolchain's line; where these files are not as committed, it says
so. The same commit gives the same bytes.

With --check nothing is written, and the status is 1 where the file is not what would be written.

With --draft the page is written to FILE with the module and the editor that web/site/sel4sim.html has in it. So a change of the
page itself can be looked at before anything is proved or compiled; it needs Python alone.
"""
import base64
import gzip
import json
import os
import pathlib
import re
import shutil
import subprocess
import sys

TOP = pathlib.Path(__file__).resolve().parent.parent.parent
sys.path[:0] = [str(TOP / "web" / "page"), str(TOP / "web" / "browser"), str(TOP / "tools")]

import join  # noqa: E402
from man_page import newest_version  # noqa: E402

SOURCE = TOP / "web" / "browser" / "source"
SETUPS = TOP / "tests" / "worked"
SITE = TOP / "web" / "site" / "sel4sim.html"
CODEMIRROR = pathlib.Path("/usr/share/javascript/codemirror")
SCRIPTS = ("lib/codemirror.js", "mode/toml/toml.js")
# What the page is made of; a change elsewhere leaves it as it is.
MADE_OF = ("crates", "crates.txt", "web/page/source", "web/page/join.py", "web/browser/source", "web/browser/c", "web/browser/build.py",
           "web/browser/module.py", "web/browser/retarget.py", "docs/behaviour.md", "tests/answers")
RULES = TOP / "docs" / "behaviour.md"
FIRST_TOPICS, LAST_TOPICS = ("exercises", "examples"), ("expectations", "refused")
# The set-ups of other topics are tests, each of one reason: they come behind the others.
TESTS = re.compile("why_")
# So many exercises belong to each lecture, in the order of their names; those with a goal come behind them.
LECTURES = (("capability spaces", 3), ("untyped memory", 2), ("derivation", 3), ("endpoints", 2), ("confinement", 2), ("goals", 4))
# With these one begins, in this order.
BEGIN_HERE = ("send_then_receive", "guarded_address_space", "revocation_of_badged_copies", "two_clients_by_badge",
              "layout_of_three_components", "three_clients")
# The answers of exercises are not in the page.
ANSWERS_OF_EXERCISES = ("exercise_answers/", "examples/exercise_copies_and_badges")
# Set-ups that are told of by another subcommand than check: their folder, and the tab that they are opened in.
ANSWERS = TOP / "tests" / "answers"
GOALS = ANSWERS / "goals"
FOR_TABS = (("explorations", "orders"), ("audits", "audit"), ("parts", "ever"), ("policies", "policy"), ("trees", "tree"))
POLICY = ".policy.toml"
FIRST_CALLS = re.compile(r"^#.*--first (\d+)", re.M)


def needs():
    """Yields what this machine lacks."""
    if not all((CODEMIRROR / it).is_file() for it in (*SCRIPTS, "lib/codemirror.css")):
        yield "CodeMirror (apt-get install libjs-codemirror)"
    if shutil.which("rt") is None:
        yield "the Rattle toolchain, with its command rt on the path"
    if shutil.which("wasm-opt") is None:
        yield "wasm-opt (apt-get install binaryen)"
    if not (TOP / "crates" / "sel4sim" / "out" / "sel4sim").is_file():
        yield "the proved program (make prove)"


def output(*words):
    return subprocess.run(words, cwd=TOP, stdout=subprocess.PIPE, text=True, check=True).stdout.strip()


def commit():
    """Returns the last commit of what the page is made of, and whether the files differ from it."""
    changed = output("git", "status", "--porcelain", "--", *MADE_OF)
    return output("git", "log", "-1", "--format=%H", "--", *MADE_OF) + (", with changes" if changed else "")


def editor():
    """Returns the style and the script of the editor, as Debian packs it."""
    style = (CODEMIRROR / "lib/codemirror.css").read_text()
    return style, "\n" + "".join((CODEMIRROR / it).read_text() for it in SCRIPTS)


def readable(paths):
    """Yields set-ups with their texts. One that is no UTF-8 cannot be edited."""
    for path in sorted(paths):
        try:
            yield path, path.read_text(encoding="utf-8")
        except UnicodeDecodeError:
            continue


def options_of(path, text):
    """The options with which a set-up is told of: those in a file NAME.args, or that the name of a file NAME.OPTIONS.ever or
    its first comment has."""
    words = path.with_suffix(".args")
    lines = words.read_text().split() if words.exists() else []
    options = {option.removeprefix("--"): value for option, value in zip(lines[::2], lines[1::2])}
    for file in sorted(path.parent.glob(f"{path.stem}.*.ever"))[:1]:
        for option, _, value in (part.partition("-") for part in file.name.split(".")[1:-1]):
            options[option] = f"{options[option]},{value}" if option in options else value
    if found := FIRST_CALLS.search(text):
        options["first"] = found[1]
    return options


def policy_of(path):
    """The policy that a set-up is held to, where one is beside it."""
    policy = path.with_suffix(POLICY)
    return {"policy": policy.read_text()} if policy.exists() else {}


def for_tabs():
    """Yields the set-ups that are opened in a tab of their own, as topics."""
    for kind, tab in FOR_TABS:
        found = readable(it for it in (ANSWERS / kind).glob("*.toml") if not it.name.endswith(POLICY))
        setups = [{"name": path.stem, "text": text, "options": options_of(path, text), **policy_of(path)} for path, text in found]
        if setups:
            yield {"topic": f"for {tab}", "tab": tab, "setups": setups}


def is_answer(path):
    """Whether a set-up has the answers of an exercise."""
    return f"{path.parent.name}/{path.stem}".startswith(ANSWERS_OF_EXERCISES)


def by_lecture(setups):
    """Returns the exercises, each with the lecture that it belongs to."""
    groups = [lecture for lecture, count in LECTURES for _ in range(count)]
    if len(groups) != len(setups):
        sys.exit(f"build.py has lectures for {len(groups)} exercises, and there are {len(setups)}")
    return [{**setup, "group": group} for setup, group in zip(setups, groups)]


def first_ones_first(setups):
    """Returns the examples: first those with which one begins."""
    by_name = {setup["name"]: setup for setup in setups}
    others = [setup for setup in setups if setup["name"] not in BEGIN_HERE]
    return [*({**by_name[name], "group": "begin here"} for name in BEGIN_HERE), *({**it, "group": "more examples"} for it in others)]


def topics():
    """Returns the set-ups by topic: exercises and examples first, those of a tab behind them, and tests and mistakes last."""
    found = {}
    for path, text in readable(it for it in SETUPS.glob("*/*.toml") if not is_answer(it)):
        found.setdefault(path.parent.name, []).append({"name": path.stem, "text": text})
    goals = [{"name": path.stem, "text": text} for path, text in readable(GOALS.glob("*.toml"))]
    found["exercises"], found["examples"] = by_lecture([*found["exercises"], *goals]), first_ones_first(found["examples"])
    others = sorted(found.keys() - set(FIRST_TOPICS), key=lambda it: (it in LAST_TOPICS, bool(TESTS.match(it)), it))
    told = {it: {"topic": it, "setups": found[it]} for it in (*FIRST_TOPICS, *others)}
    return [*(told[it] for it in FIRST_TOPICS), *for_tabs(), *(told[it] for it in others)]


def packed(bytes_):
    """Returns bytes as the page has them: by gzip, as base64."""
    return base64.b64encode(gzip.compress(bytes_, 9, mtime=0)).decode()


def compiled():
    """Returns the program's module, packed as the page has it, and the toolchain's line."""
    import module
    return packed(module.module()), output("rt", "version")


def taken():
    """Returns the same two as the page has them that was made last."""
    made = SITE.read_text()
    toolchain = re.search(r'<meta name="sel4sim-toolchain" content="([^"]*)">', made)[1]
    return re.search(r'<script type="text/plain" id="module">([^<]*)</script>', made)[1], toolchain


def taken_editor():
    """Returns the style and the script of the editor as that page has them."""
    made = SITE.read_text()
    style = re.search(r"/\* BASICS \*/.*?(?=^\* \{ box-sizing)", made, re.S | re.M)[0]
    return style, re.search(r"<script>(.*?)</script>", made, re.S)[1]


def data():
    """Returns what the page's script reads, but for the module: JSON, packed."""
    told = {"worker": (SOURCE / "worker.mjs").read_text(), "viewer": join.viewer(), "rules": RULES.read_text(), "topics": topics()}
    return packed(json.dumps(told, ensure_ascii=False).encode())


def policy(style, *scripts):
    """Just these scripts, styles and workers of the page's own, and those of the page of a trace, which stands in a frame;
    nothing is loaded, and no text becomes markup or an address of a script but where page.mjs makes it so."""
    frame_style, frame_script = map(join.digest, join.viewer_parts())
    hashes = " ".join(map(join.digest, scripts))
    return (f"default-src 'none'; style-src {join.digest(style)} {frame_style}; "
            f"script-src {hashes} {frame_script} 'wasm-unsafe-eval'; worker-src blob:; base-uri 'none'; "
            "form-action 'none'; require-trusted-types-for 'script'; trusted-types sel4sim")


def page(made_of, module, toolchain, editor_style, codemirror):
    """Returns the text of the page, which tells the commit that it is made of."""
    before, behind = (("colours.css", "shared.css", "wires.css"), ("style.css", "exercise.css"))
    style = "\n" + "".join([*((join.SOURCE / it).read_text() for it in before), editor_style, *((SOURCE / it).read_text() for it in behind)])
    style, codemirror, script = join.harmless(style, codemirror, join.joined(SOURCE / "page.mjs", apart=("worker.mjs",)))
    return join.filled((SOURCE / "page.html").read_text(), policy=policy(style, codemirror, script), style=style,
                       version=newest_version(TOP), commit=made_of, toolchain=toolchain, module=module, data=data(), codemirror=codemirror, script=script)


def draft():
    """Returns the text of the page with all that is not made here taken from the page that was made last."""
    return page("a draft", *taken(), *taken_editor())


def main():
    if sys.argv[1:2] == ["--draft"]:
        pathlib.Path(sys.argv[2]).write_text(draft())
        return 0
    missing = list(needs())
    if missing:
        print("make browser needs " + ", ".join(missing), file=sys.stderr)
        return 2
    import module
    try:
        text = page(commit(), *compiled(), *editor())
    except module.Failed as fault:
        print(f"make browser: {fault}", file=sys.stderr)
        return 1
    if sys.argv[1:] == ["--check"]:
        is_same = SITE.exists() and SITE.read_text() == text
        print(f"web/site/{SITE.name} is " + ("the same" if is_same else "not what would be made of these sources"))
        return 0 if is_same else 1
    SITE.parent.mkdir(exist_ok=True)
    SITE.write_text(text)
    print(f"web/site/{SITE.name}: {len(text.encode()):,} bytes, of commit {commit()}")
    return 0


if __name__ == "__main__":
    sys.exit(main())
