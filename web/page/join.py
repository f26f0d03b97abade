#!/usr/bin/env python3
"""join.py: makes viewer.html out of the files in source/.

viewer.html opens a trace from a file. page.sh makes a page of a run of it: it writes another title, the trace and the
audits into the lines that begin with <title>, <pre id="trace"> and <pre id="audits", which stand once each. The modules become one script, in the
order in which they need one another: each is a function that gives what the module exports, and an import takes it from
there. The page's policy lets the browser run just this script and use just this style, by their hashes, and load
nothing.
"""
import base64
import hashlib
import pathlib
import re
import sys

import refusals

FOLDER = pathlib.Path(__file__).resolve().parent
SOURCE = FOLDER / "source"
FIRST_MODULE = SOURCE / "page.mjs"
STYLES = ("colours.css", "shared.css", "style.css", "wires.css")
IMPORT = re.compile(r'^import \{ ([\w, ]+) \} from "([./\w]+)/(\w+\.mjs)";\n', re.M)
EXPORT = re.compile(r"^export (?=(?:async )?(?:function|class|const) (\w+))", re.M)


def in_order(path, found):
    """The modules that one needs, each behind those that it needs itself, and then the module: their paths, with their texts."""
    if path not in found:
        text = path.read_text()
        for _, folder, needed in IMPORT.findall(text):
            in_order((path.parent / folder / needed).resolve(), found)
        found[path] = text
    return found


def faults_of(modules, folder, apart):
    """What keeps the modules from being joined; each one in the folder has to be among them, but for those that stand
    apart."""
    for module, text in modules.items():
        for names, _, needed in IMPORT.findall(text):
            for name in names.split(", "):
                if name not in EXPORT.findall(modules[needed]):
                    yield f"{module} imports {name}, which {needed} does not export"
                if len(re.findall(rf"\b{name}\b", text)) == 1:
                    yield f"{module} imports {name} and does not use it"
        if re.search(r"^\s*(?:import|export)\b", EXPORT.sub("", IMPORT.sub("", text)), re.M):
            yield f"{module} has an import or an export of another form"
    for module in sorted(path.name for path in folder.glob("*.mjs")):
        if module not in modules and module not in apart:
            yield f"no module needs {module}"
    if refusals.ERRORS.exists() and modules.get(refusals.MODULE.name) != refusals.made():
        yield "the refusals are others in docs/errors.md: web/page/refusals.py writes them"


def function_of(module, text):
    """A module as a function that is called at once and gives what the module exports."""
    name = module.removesuffix(".mjs")
    taken = IMPORT.sub(lambda found: f"const {{ {found[1]} }} = modules.{found[3].removesuffix('.mjs')};\n", text)
    given = ", ".join(EXPORT.findall(text))
    return f"\n// {module}\nmodules.{name} = (() => {{\n{EXPORT.sub('', taken)}return {{ {given} }};\n}})();\n"


def joined(first, apart=()):
    """One script of a module and all that it needs; modules that stand apart in its folder are scripts of their own."""
    found = in_order(first, {})
    modules = {path.name: text for path, text in found.items()}
    names = [path.name for path in found]
    faults = [f"two modules have the name {name}" for name in modules if names.count(name) > 1] + list(faults_of(modules, first.parent, apart))
    if faults:
        sys.exit("\n".join(faults))
    parts = [function_of(module, text) for module, text in modules.items()]
    return '\n"use strict";\n(() => {\nconst modules = {};\n' + "".join(parts) + "})();\n"


def filled(page, **texts):
    """A page with texts in the places of their names in braces, each of which stands once."""
    for name, text in texts.items():
        assert page.count(f"{{{name}}}") == 1, name
    return re.sub("|".join(rf"\{{{name}\}}" for name in texts), lambda found: texts[found[0][1:-1]], page)


def harmless(*texts):
    """Texts of scripts and styles, none of which ends its element too early."""
    for text in texts:
        if re.search(r"</(?:script|style)|<!--", text, re.I):
            sys.exit("the script or the style would end too early in a page")
    return texts


def digest(text):
    return "'sha256-" + base64.b64encode(hashlib.sha256(text.encode()).digest()).decode() + "'"


def policy_of(style, script):
    """Just this style and this script, no load, no form, no other base, and no markup made of texts."""
    return (f"default-src 'none'; style-src {digest(style)}; script-src {digest(script)}; base-uri 'none'; "
            "form-action 'none'; require-trusted-types-for 'script'; trusted-types 'none'")


def viewer_parts():
    """The style and the script of the viewer."""
    return harmless("\n" + "".join((SOURCE / name).read_text() for name in STYLES), joined(FIRST_MODULE))


def viewer():
    """The text of viewer.html."""
    style, script = viewer_parts()
    page = filled((SOURCE / "page.html").read_text(), policy=policy_of(style, script), style=style, script=script)
    for line in ("<title>", '<pre id="trace">', '<pre id="audits"'):
        assert len(re.findall(f"^{line}", page, re.M)) == 1, line
    return page


def main():
    (FOLDER / "viewer.html").write_text(viewer())


if __name__ == "__main__":
    main()
