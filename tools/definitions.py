"""The page docs/definitions.md: the definitions that clauses of public functions name.

It looks at what stands on a public path of each crate: the functions, the methods of types and traits, and what an `impl`
says of a type (`ghost view`, `ghost invariant`, ..). Each definition of a `specs/` folder that these name has a line on the
page, with the comment above it in its file. These are the rules:

- each definition that a public clause names has a comment;
- none of them is imported from `specs/Private`, of whatever crate, and no other file of `specs/` imports one from there: what
  stands in it serves the proofs of private functions alone. A file of lemmas in `specs/Evidence` may, and is private then."""
import pathlib
import re

from crates import TOP, listed

CRATES = pathlib.Path(TOP) / "crates"
HEAD = """# The definitions

<!-- Made by tools/pages.py from the sources: change the comments there, and run it. -->

These are the definitions that clauses of public functions name, by crate and by file, each with the comment above it in its
file. A contract is worth what they say. [reading-a-contract.md](reading-a-contract.md#twelve-definitions-to-read-first) has
those to read first. The definitions that they use in turn are in the same file, or in one that the file imports.
"""
LEAST = 300
IMPORT = re.compile(r"use Rattle\.(\w+)\.specs\.([\w.]+?)(?:\.\{([^}]*)\}| as (\w+))?;?$")
MODULE = re.compile(r"pub mod (\w+);")
EXPORT = re.compile(r"pub use (?:self::)?(\w+)::(?:\{([^}]*)\}|(\w+));")
FUNCTION = re.compile(r"(pub )?(?:const )?fn (\w+)")
TRAIT = re.compile(r"pub trait (\w+)")
LABEL = re.compile(r"\b(requires|ensures) \w+ \{")
WORD = re.compile(r"[\w◌>=]+(?:\.\w+)*")
HANDED_ON = re.compile(r"^pub use Rattle\.(\w+)\.specs\.([\w.]+?)\.\{([^}]*)\}", re.MULTILINE)
DEFINES = r"^ *(?:(?:abbrev|unfoldable|opaque) )*pub (?:(?:record|data) )?%s(?![\w-])"
CASE = r"^  (?:pub )?%s : "


def imported(line, crates):
    """What a line imports from the definitions of these crates: by the name that it binds, the crate, the module, and the
    definition's own name, or none where the name stands for the whole module."""
    found = IMPORT.search(line.strip())
    if not found or found[1] not in crates or found[2].startswith("declared"):
        return {}
    crate, module, members, alias = found.groups()
    if members is None:
        return {alias or module.split(".")[-1]: (crate, module, None)}
    pairs = [member.strip().split(" as ") for member in members.split(",") if member.strip()]
    return {pair[-1].strip(): (crate, module, pair[0].strip()) for pair in pairs}


def cited(text, names):
    """The crate, the module and the name of each definition that a text cites by one of these names."""
    for word in WORD.findall(text):
        first, *rest = word.split(".")
        if first in names:
            crate, module, name = names[first]
            yield crate, module, name or (rest[0] if rest else first)


def indentation(line):
    return len(line) - len(line.lstrip(" "))


def without_generics(line):
    """A line without what stands in angle brackets."""
    while re.search(r"<[^<>]*>", line):
        line = re.sub(r"<[^<>]*>", "", line)
    return line


def head(lines, start):
    """A function from its first line to the one on which its body opens: signature and clauses, without their labels."""
    depth = indentation(lines[start])
    end = start
    while not lines[end].endswith(";") and (indentation(lines[end]) != depth or not lines[end].endswith(("{", "}"))):
        end += 1
    return LABEL.sub(r"\1 {", "\n".join(lines[start : end + 1]))


def member(lines, start):
    """A ghost member of an `impl` or a trait."""
    end = start
    while not lines[end].endswith(";"):
        end += 1
    return "\n".join(lines[start : end + 1])


def public_clauses(lines, is_public):
    """The name and the text of each public function of a file, and of each ghost member of a public type or trait."""
    inside = None  # the type or trait in whose block a line stands, and whether all of its functions are public
    for number, line in enumerate(lines):
        text = line.strip()
        if line == "}":
            inside = None
        elif line.startswith("impl"):
            words = without_generics(line).split()
            inside = words[3 if "for" in words else 1], "for" in words
        elif TRAIT.match(line):
            inside = TRAIT.match(line)[1], True
        elif FUNCTION.match(text):
            public, name = FUNCTION.match(text).groups()
            if inside is None and indentation(line) == 0 and public and is_public(name):
                yield name, head(lines, number)
            elif inside and is_public(inside[0]) and (public or inside[1]):
                yield f"{inside[0]}::{name}", head(lines, number)
        elif inside and is_public(inside[0]) and text.startswith("ghost ") and not text.startswith("ghost use"):
            yield f"{inside[0]}, {text.split()[1]}", member(lines, number)


def names_in(members):
    return {name.strip() for name in members.split(",") if name.strip()}


def public_files(file, source, public=None):
    """Each file of a crate from one on, with the names that are public in it, or None where all that are `pub` are."""
    yield file, public
    library = file.read_text()
    whole = set(MODULE.findall(library)) if public is None else set()
    handed_on = {}
    for module, members, one in EXPORT.findall(library):
        names = names_in(members or one)
        handed_on.setdefault(module, set()).update(names if public is None else names & public)
    for inner in sorted((source if file.stem == "lib" else file.with_suffix("")).glob("*.rt")):
        if inner != file:
            yield from public_files(inner, source, None if inner.stem in whole else handed_on.get(inner.stem, set()))


def citations(crate, crates):
    """Each public function or ghost member of a crate, with the definitions that it cites."""
    source = CRATES / crate / "src"
    for file, public in public_files(source / "lib.rt", source):
        lines = file.read_text().split("\n")
        known = {}
        for line in lines:
            known.update(imported(line, crates))
        for name, text in public_clauses(lines, lambda item: public is None or item in public):
            yield f"{crate}, {name}", set(cited(text, known))


def private_imports(crate, crates):
    """What a file of definitions imports from a private one, without being private itself: the file, and the name."""
    for file in sorted((CRATES / crate / "specs").rglob("*.antt")):
        if "Private" not in file.parts and file.name != "Private.antt":
            for line in file.read_text().split("\n"):
                for _, module, name in imported(line, crates).values():
                    if module.startswith("Private"):
                        yield file, name or module


def home_of(crate, module, name):
    """Where a definition stands that a file of `specs/` defines or hands on: the crate, the module, the text of its file."""
    file = CRATES / crate / "specs" / (module.replace(".", "/") + ".antt")
    text = file.read_text() if file.is_file() else ""
    for other, there, members in HANDED_ON.findall(text):
        if name in (it.strip() for it in members.split(",")):
            return home_of(other, there, name)
    return crate, module, text


def comment_above(lines, at):
    above = at
    while above and lines[above - 1].strip().startswith("--"):
        above -= 1
    return " ".join(line.strip().removeprefix("--").strip() for line in lines[above:at])


def comment_on(text, name):
    """The line on which a definition begins in the text of its file, and the comment above it, or none where it has none. A
    case of a type without a comment of its own has that of the type."""
    lines = text.split("\n")
    patterns = [re.compile(it % re.escape(name)) for it in (DEFINES, CASE)]
    at = next((at for it in patterns for at, line in enumerate(lines) if it.match(line)), None)
    if at is None:
        return 0, None
    of_type = next((it for it in range(at, -1, -1) if lines[it].startswith("pub data ")), None)
    return at, comment_above(lines, at) or (of_type is not None and comment_above(lines, of_type)) or None


def look():
    """The definitions that public clauses cite, each at home, with its line and its comment; what is wrong; and how many
    functions and ghost members were looked at."""
    crates = [name for name in listed() if (CRATES / name / "src/lib.rt").exists()]
    found, wrong, count = {}, [], 0
    imports = [it for crate in crates for it in private_imports(crate, crates)]
    lemmas = {f"Evidence.{file.stem}" for file, _ in imports if file.parent.name == "Evidence"}
    wrong += [f"{file} imports {name}, which is private" for file, name in imports if file.parent.name != "Evidence"]
    for crate in crates:
        for item, definitions in citations(crate, crates):
            count += 1
            for where in sorted(definitions):
                home, module, text = home_of(*where)
                found[home, module, where[2]] = comment_on(text, where[2])
                if where[1].startswith("Private") or where[1] in lemmas:
                    wrong.append(f"{item}: cites {where[2]}, which is private")
    wrong += [f"{crate}: {name} of {module} has no comment" for (crate, module, name), (_, it) in found.items() if it is None]
    return found, wrong, count


def page_of(found):
    order = list(listed())
    text, last = [HEAD], (None, None)
    for crate, module, name in sorted(found, key=lambda it: (order.index(it[0]), it[1], found[it][0], it[2])):
        if crate != last[0]:
            text.append(f"\n## {crate}\n")
        if (crate, module) != last:
            text.append(f"\n[{module}](../crates/{crate}/specs/{module.replace('.', '/')}.antt)\n\n")
        last = crate, module
        text.append(f"- `{name}`: {found[crate, module, name][1]}\n")
    return "".join(text)


def made():
    """The text of the page, and what is wrong."""
    found, wrong, count = look()
    if count < LEAST:
        wrong.append(f"only {count} public functions and ghost members were found")
    return "" if wrong else page_of(found), wrong
