"""What crates.txt says: which crates there are, and what each stands on."""
import os
import shutil

TOP = os.path.dirname(os.path.dirname(os.path.abspath(__file__)))


def listed(top=TOP):
    """Returns a dict from each crate of crates.txt to the crates of that file that it names, and its line."""
    lines = {}
    with open(os.path.join(top, "crates.txt"), encoding="utf-8") as text:
        for line in text:
            line = line.split("#")[0].strip()
            if line:
                head, _, uses = line.partition(":")
                lines[head.split()[0]] = (uses.split(), line)
    return {name: ([it for it in uses if it in lines], line) for name, (uses, line) in lines.items()}


def uses_of(line):
    """Returns the libraries that a line of crates.txt names, the toolchain's too."""
    return line.partition(":")[2].split()


def in_order(goal, uses):
    """Returns the crates that the goal stands on, each after those that it names, and then the goal."""
    order = []

    def add(name):
        if name not in order:
            for below in uses[name]:
                add(below)
            order.append(name)

    add(goal)
    return order


def kit():
    """Returns the toolchain's folder: the command `rt` stands in its folder bin."""
    return os.path.dirname(os.path.dirname(os.path.realpath(shutil.which("rt"))))


def toolchain():
    """Returns what tells this toolchain from another one: the files beside the command `rt`, with sizes and times."""
    files = [(it.name, it.stat()) for it in os.scandir(os.path.join(kit(), "bin")) if it.is_file()]
    return repr(sorted((name, it.st_size, it.st_mtime_ns) for name, it in files)).encode()


def linked_toolchain(folder, scripts, **words):
    """Makes the toolchain's compiler in a folder, of links to its files but for these scripts of its bin/. In their text `{real}`
    is the toolchain's own compiler, and `{NAME}` the word of that name."""
    real = os.path.join(kit(), "toolchain")
    for at in ("", "bin"):
        os.makedirs(os.path.join(folder, at), exist_ok=True)
        for it in os.listdir(os.path.join(real, at)):
            if it != "bin" and it not in scripts:
                os.symlink(os.path.join(real, at, it), os.path.join(folder, at, it))
    for name, text in scripts.items():
        with open(os.path.join(folder, "bin", name), "w", encoding="utf-8") as file:
            file.write(text.format(real=real, **words))
        os.chmod(os.path.join(folder, "bin", name), 0o755)
