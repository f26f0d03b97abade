#!/usr/bin/env python3
"""archive.py dist|install|uninstall: packages of the proved program and what goes with it, or the same below a folder.

dist       proves and builds the program as make prove does, and writes into dist/ an archive, if dpkg-deb is there a Debian
           package, and the module for WebAssembly that the page in web/site has in it. It refuses a tree that differs from
           its commit, unless CHANGED=1 is set; names and the file PROVED then say so. The same program at the same commit
           gives the same bytes.
install    copies the program that make prove built to $DESTDIR$PREFIX; PREFIX is /usr/local if it is not set.
uninstall  removes these files there, and the folders that are empty then."""
import base64
import contextlib
import gzip
import hashlib
import io
import os
import re
import shutil
import subprocess
import sys
import tarfile
import tempfile

import prove
from crates import TOP

sys.path.append(os.path.join(TOP, "web", "page"))

import join  # noqa: E402

PROGRAM = "crates/sel4sim/out/sel4sim"
PAGE = "web/site/sel4sim.html"
# What stands for the module for WebAssembly, which is packed in the page.
MODULE = f"{PAGE}: its module"
PROVED = """sel4sim {version}, commit {commit}{changed}
of {when}

This is the program as `make prove` built it from {state}.
`make prove` builds it where all the crates that it stands on are proved, and else not at all.
Proved with: {toolchain}
SHA-256 of bin/sel4sim: {sum}

The program needs x86-64 Linux with the GNU C library, and no toolchain. To install it: copy bin/ and share/ below
/usr/local or another prefix. In README and the pages, `examples` is `share/sel4sim/examples` here, and `page` is
`share/sel4sim/page`. To begin: bin/sel4sim check share/sel4sim/examples/send_then_receive.toml
Without installing anything: open share/doc/sel4sim/web/site/sel4sim.html in a browser. It is the same program, compiled for
WebAssembly, of commit {page}; tested against the native one, not proved. By itself it is share/sel4sim/sel4sim.wasm.
"""
CONTROL = """Package: sel4sim
Version: {version}
Architecture: amd64
Maintainer: {maintainer}
Depends: libc6
Section: science
Priority: optional
Installed-Size: {size}
Description: proved simulator of the capability part of the seL4 microkernel
 It runs calls on a simulated kernel with capability spaces, derivation,
 untyped memory, threads and endpoints, says what each is answered, and what
 the threads of a layout can never get. Commit {commit}.
"""
COPYRIGHT = "sel4sim is under the MIT licence or the Apache licence 2.0, at your choice: LICENSE-MIT and LICENSE-APACHE, here.\n"


class Refused(Exception):
    """Why there is no archive, or nothing to install."""


def below(folder):
    """Yields the files below a folder of the repository, by their paths in it."""
    for at, folders, names in os.walk(os.path.join(TOP, folder)):
        folders[:] = sorted(it for it in folders if it not in ("out", "__pycache__"))
        yield from (os.path.relpath(os.path.join(at, name), os.path.join(TOP, folder)) for name in sorted(names))


def contents():
    """Returns a dict from each path below the prefix to the file of the repository that goes there."""
    files = {"bin/sel4sim": PROGRAM, "share/man/man1/sel4sim.1": "tools/sel4sim.1"}
    # Where each shell looks for completions of programs that are installed below the prefix.
    files["share/bash-completion/completions/sel4sim"] = "tools/completions/sel4sim.bash"
    files["share/zsh/site-functions/_sel4sim"] = "tools/completions/_sel4sim"
    files["share/fish/vendor_completions.d/sel4sim.fish"] = "tools/completions/sel4sim.fish"
    # Of the page of a trace its sources are kept, and it is made here.
    join.main()
    files.update((f"share/sel4sim/page/{it}", f"web/page/{it}") for it in ("page.sh", "pages.sh", "viewer.html"))
    examples = "tests/worked/examples"
    files.update((f"share/sel4sim/examples/{it}", f"{examples}/{it}") for it in below(examples))
    files.update((f"share/doc/sel4sim/docs/{it}", f"docs/{it}") for it in below("docs"))
    files["share/sel4sim/sel4sim.wasm"] = MODULE
    files.update((f"share/sel4sim/wasm/{it}", f"web/wasm/{it}") for it in below("web/wasm"))
    # Beside the pages: it names docs/browser.md.
    files[f"share/doc/sel4sim/{PAGE}"] = PAGE
    top = ["README.md", "CHANGELOG.md", "CONTRIBUTING.md", *sorted(it for it in os.listdir(TOP) if it.startswith("LICENSE"))]
    files.update((f"share/doc/sel4sim/{it}", it) for it in top)
    return files


def read(source):
    """Returns the bytes of a file of the repository, or of the module that the page has in it."""
    with open(os.path.join(TOP, PAGE if source == MODULE else source), "rb") as file:
        text = file.read()
    return gzip.decompress(base64.b64decode(re.search(rb'<script type="text/plain" id="module">([^<]*)</script>', text)[1])) if source == MODULE else text


def page_commit():
    """Returns the commit that the page, and so its module, is made of."""
    return re.search(r'<meta name="sel4sim-commit" content="([^"]*)">', read(PAGE).decode())[1]


def version():
    """Returns the version that the program prints: the date of the newest release."""
    return re.search(r'VERSION: &str = "(\d{4}-\d\d-\d\d)', read("crates/command_line/src/built.rt").decode())[1]


def is_run(path):
    return path.startswith("bin/") or path.endswith(".sh")


def git(*words):
    return subprocess.run(["git", *words], cwd=TOP, stdout=subprocess.PIPE, text=True, check=True).stdout.strip()


def state():
    """Returns the commit and what differs from it."""
    return git("rev-parse", "HEAD"), git("status", "--porcelain")


def proved_text(commit, changed):
    return PROVED.format(
        version=version(),
        commit=commit,
        page=page_commit(),
        changed=", with changes that are not in it" if changed else "",
        when=git("show", "-s", "--format=%cI", commit),
        state="a tree with changes that are not in the commit" if changed else "this commit, with nothing changed",
        toolchain=subprocess.run(["rt", "version"], stdout=subprocess.PIPE, text=True, check=True).stdout.strip(),
        sum=hashlib.sha256(read(PROGRAM)).hexdigest(),
    )


def named(commit, changed):
    """Returns how names of packages tell a commit, and that a tree differs from it."""
    return f"{commit[:12]}{'-changed' if changed else ''}"


def made_at(commit):
    return int(git("show", "-s", "--format=%ct", commit))


def packed(commit, changed):
    """Returns the archive's name and its bytes."""
    name, made = f"sel4sim-{version()}-{named(commit, changed)}", made_at(commit)
    files = {"PROVED": proved_text(commit, changed).encode(), **{path: read(source) for path, source in contents().items()}}
    plain = io.BytesIO()
    with tarfile.open(fileobj=plain, mode="w", format=tarfile.GNU_FORMAT) as archive:
        for path, text in sorted(files.items()):
            entry = tarfile.TarInfo(f"{name}/{path}")
            entry.size, entry.mtime, entry.mode = len(text), made, 0o755 if is_run(path) else 0o644
            archive.addfile(entry, io.BytesIO(text))
    zipped = io.BytesIO()
    with gzip.GzipFile(filename="", mode="wb", fileobj=zipped, compresslevel=9, mtime=made) as file:
        file.write(plain.getvalue())
    return f"{name}-x86_64-linux.tar.gz", zipped.getvalue()


def laid_out(root, files):
    """Writes the files of a Debian package below a folder."""
    for path, text in files.items():
        there = os.path.join(root, path)
        os.makedirs(os.path.dirname(there), exist_ok=True)
        with open(there, "wb") as file:
            file.write(text)
        os.chmod(there, 0o755 if is_run(path.removeprefix("usr/")) else 0o644)
    for at, _, _ in os.walk(root):
        os.chmod(at, 0o755)


def debian(commit, changed):
    """Returns the Debian package's name and its bytes: all that is installed, below /usr."""
    dotted, made = version().replace("-", ".") + ("+changed" if changed else ""), made_at(commit)
    files = {f"usr/{path}": read(source) for path, source in contents().items()}
    files["usr/share/doc/sel4sim/PROVED"] = proved_text(commit, changed).encode()
    files["usr/share/doc/sel4sim/copyright"] = COPYRIGHT.encode()
    control = CONTROL.format(version=dotted, maintainer=git("show", "-s", "--format=%an <%ae>", commit), commit=commit,
                             size=sum(map(len, files.values())) >> 10)
    with tempfile.TemporaryDirectory(prefix="sel4sim-deb-") as folder:
        root, package = os.path.join(folder, "root"), os.path.join(folder, "made.deb")
        laid_out(root, {"DEBIAN/control": control.encode(), **files})
        subprocess.run(["dpkg-deb", "--root-owner-group", "-Zxz", "--build", root, package], check=True, stdout=subprocess.DEVNULL,
                       env={**os.environ, "SOURCE_DATE_EPOCH": str(made)})
        with open(package, "rb") as file:
            return f"sel4sim_{dotted}_amd64.deb", file.read()


def packages(commit, changed):
    """Yields each package's name and its bytes."""
    yield packed(commit, changed)
    if shutil.which("dpkg-deb"):
        yield debian(commit, changed)
    yield f"sel4sim-{page_commit()[:12]}.wasm", read(MODULE)


def dist():
    """Proves the program, writes the packages and returns their paths."""
    commit, changed = state()
    if changed and not os.environ.get("CHANGED"):
        raise Refused(f"the tree differs from its commit; CHANGED=1 makes an archive that says so\n{changed}")
    status = prove.built()
    if status:
        sys.exit(status)
    if state() != (commit, changed):
        raise Refused("the tree changed while the program was built")
    os.makedirs(os.path.join(TOP, "dist"), exist_ok=True)
    paths = []
    for name, whole in packages(commit, changed):
        paths.append(f"dist/{name}")
        with open(os.path.join(TOP, paths[-1]), "wb") as file:
            file.write(whole)
    return paths


def install(to):
    """Copies all to a folder. A file that is there is replaced as a whole, also where it is a program that runs."""
    if not prove.crate_of(prove.NAME).is_made():
        raise Refused("there is no proved program: make prove builds it")
    for path, source in contents().items():
        there = os.path.join(to, path)
        os.makedirs(os.path.dirname(there), exist_ok=True)
        with open(f"{there}.part", "wb") as part:
            part.write(read(source))
        os.chmod(f"{there}.part", 0o755 if is_run(path) else 0o644)
        os.replace(f"{there}.part", there)


def uninstall(to):
    """Removes from a folder what is installed there, and each folder below it that is empty then. Returns how many files there were."""
    count = 0
    for path in contents():
        with contextlib.suppress(FileNotFoundError):
            os.remove(os.path.join(to, path))
            count += 1
        above = os.path.dirname(path)
        while above:
            with contextlib.suppress(OSError):
                os.rmdir(os.path.join(to, above))
            above = os.path.dirname(above)
    return count


def main(words):
    to = os.environ.get("DESTDIR", "") + (os.environ.get("PREFIX") or "/usr/local")
    try:
        if words == ["dist"]:
            print("\n".join(dist()))
            if not shutil.which("dpkg-deb"):
                print("make dist: no Debian package, since there is no dpkg-deb", file=sys.stderr)
        elif words == ["install"]:
            install(to)
            print(f"installed below {to}")
        elif words == ["uninstall"]:
            print(f"removed {uninstall(to)} files below {to}")
        else:
            print(__doc__, file=sys.stderr)
            return 2
    except (Refused, OSError) as fault:
        print(f"make {words[0]}: {fault}", file=sys.stderr)
        return 1
    return 0


if __name__ == "__main__":
    sys.exit(prove.status_of(lambda: main(sys.argv[1:])))
