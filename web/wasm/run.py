"""run.py SEL4SIM.WASM WORD..: runs sel4sim with these words, by node and the file run.mjs next to this one.

In a program: `from run import sel4sim`, then `status, text, errors = sel4sim("sel4sim.wasm", "check", "-", given=b"format = 2\\n..")`."""
import pathlib
import subprocess
import sys

HOST = pathlib.Path(__file__).resolve().with_name("run.mjs")


def started(module, words, **how):
    """What subprocess knows of a run that has ended."""
    return subprocess.run(["node", str(HOST), str(module), *words], check=False, **how)


def sel4sim(module, *words, given=b""):
    """The exit status, the bytes of standard output, and the lines of standard error; `given` is standard input."""
    ended = started(module, words, input=given, capture_output=True)
    return ended.returncode, ended.stdout, ended.stderr.decode(errors="replace").splitlines()


if __name__ == "__main__":
    sys.exit(started(sys.argv[1], sys.argv[2:]).returncode)
