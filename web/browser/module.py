"""Makes out/sel4sim.wasm: the proved program, compiled for WebAssembly from its own LLVM module.

1. `rt` proves and builds the program once more, in a folder of its own and by a toolchain of links, whose clang also
   keeps the module that it is given. So what is compiled here is what `make prove` compiles.
2. retarget.py rewrites that module for 64-bit WebAssembly, and the toolchain's own clang compiles it. c/ stands for the
   C library.
3. wasm-opt makes 32-bit memory of it, which every browser has.

Nothing is made anew where the program, these files and the toolchain are the same as before.
"""
import contextlib
import hashlib
import os
import subprocess
import sys
import tempfile

sys.path.insert(0, os.path.join(os.path.dirname(os.path.dirname(os.path.dirname(os.path.abspath(__file__)))), "tools"))

import prove  # noqa: E402
from crates import TOP, kit, linked_toolchain, toolchain  # noqa: E402
from retarget import NoCounterpart, retargeted  # noqa: E402

HERE = os.path.join(TOP, "web", "browser")
OUT = os.path.join(HERE, "out")
NAME = prove.NAME
PROGRAM = os.path.join(TOP, "crates", NAME, "out", NAME)
WASM = os.path.join(OUT, f"{NAME}.wasm")
C_FILES = ("system", "heap", "wide")
MOST_MEMORY = 1 << 30
STACK = 8 << 20
LINES_SHOWN = 30
TARGET = ["--target=wasm64-unknown-unknown", "-mbulk-memory", "-mno-simd128", "-O2", "-c"]
# wasm has no division of 128 bits and no conversion between them and floats: they are done in words of 64.
BY_WORDS = ["-mllvm", "-expand-div-rem-bits=64", "-mllvm", "-expand-fp-convert-bits=64"]
CLANG_THAT_KEEPS = """#!/bin/bash
for word in "$@"; do case $word in *.bc) cp "$word" "{kept}";; esac; done
exec -a "$(basename "$0")" "{real}/bin/clang" "$@"
"""


class Failed(Exception):
    """Why there is no module."""


def run(words, **how):
    """Runs a command and returns what it writes; a status other than 0 fails with the last lines of what it told."""
    ran = subprocess.run(words, stdout=subprocess.PIPE, stderr=subprocess.PIPE, check=False, **how)
    if ran.returncode:
        told = (ran.stdout + ran.stderr).decode(errors="replace").splitlines()[-LINES_SHOWN:]
        raise Failed("\n".join([*told, f"{os.path.basename(words[0])} ended with status {ran.returncode}"]))
    return ran.stdout


def module_of_program(folder):
    """Proves and builds the program over the libraries that are built, and returns its LLVM module as text."""
    kept, compiler = os.path.join(folder, "module.bc"), os.path.join(folder, "toolchain")
    linked_toolchain(compiler, {"clang": CLANG_THAT_KEEPS}, kept=kept)
    program = prove.crate_of(NAME)
    run(program.command(1, to=os.path.join(folder, f"{NAME}.o"), compiler=compiler), cwd=program.folder)
    if not os.path.isfile(kept):
        raise Failed("the toolchain gave its clang no module")
    as_text = ["--target=x86_64-unknown-linux-gnu", "-x", "ir", "-S", "-emit-llvm", "-Xclang", "-disable-llvm-passes"]
    return run([clang(), *as_text, kept, "-o", "-"]).decode()


def clang():
    return os.path.join(kit(), "toolchain", "bin", "clang")


def compile_module(text, folder):
    """Compiles the module and c/, links them, and returns the bytes of the WebAssembly module."""
    def in_folder(name):
        return os.path.join(folder, name)

    with open(in_folder("module.ll"), "w", encoding="utf-8") as file:
        file.write(text)
    run([clang(), *TARGET, *BY_WORDS, "-ffunction-sections", "-x", "ir", in_folder("module.ll"), "-o", in_folder("module.o")])
    for it in C_FILES:
        run([clang(), *TARGET, os.path.join(HERE, "c", f"{it}.c"), "-o", in_folder(f"{it}.o")])
    objects = [in_folder(f"{it}.o") for it in ("module", *C_FILES)]
    # With the stack below everything else, a program that runs out of it traps, and overwrites nothing.
    how = ["-flavor", "wasm", "-mwasm64", "--no-entry", "--export=main", "--strip-all", "--stack-first",
           "-z", f"stack-size={STACK}", f"--max-memory={MOST_MEMORY}"]
    run(["wasm-ld", *how, *objects, "-o", in_folder("64.wasm")], executable=os.path.join(kit(), "toolchain", "bin", "ld.lld"))
    run(["wasm-opt", "--memory64-lowering", "--all-features", "-O2", in_folder("64.wasm"), "-o", in_folder("32.wasm")])
    with open(in_folder("32.wasm"), "rb") as file:
        return file.read()


def stamp():
    """Returns a sum of what the module is made from."""
    total = hashlib.sha256(toolchain())
    total.update(run(["wasm-opt", "--version"]))
    sources = [os.path.join(HERE, it) for it in ("module.py", "retarget.py", *(f"c/{it}.c" for it in C_FILES))]
    for path in (PROGRAM, *sources):
        with open(path, "rb") as file:
            total.update(hashlib.sha256(file.read()).digest())
    return total.hexdigest()


def module():
    """Returns the bytes of the WebAssembly module, which is made first where that has to be."""
    os.makedirs(OUT, exist_ok=True)
    noted, now = f"{WASM}.stamp", stamp()
    with contextlib.suppress(FileNotFoundError):
        with open(noted, encoding="utf-8") as file, open(WASM, "rb") as made:
            if file.read() == now:
                return made.read()
    with tempfile.TemporaryDirectory(prefix="sel4sim-browser-") as folder:
        try:
            text = retargeted(module_of_program(folder))
        except NoCounterpart as fault:
            raise Failed(f"these instructions have no counterpart in retarget.py: {fault}") from None
        made = compile_module(text, folder)
    with contextlib.suppress(FileNotFoundError):
        os.remove(noted)
    with open(WASM, "wb") as file:
        file.write(made)
    with open(noted, "w", encoding="utf-8") as file:
        file.write(now)
    return made
