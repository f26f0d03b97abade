#!/usr/bin/env python3
"""needs.py [PROGRAM]: says what `make rows` needs and does not find; with PROGRAM, what `make rows-python` needs, which is
Python and the program."""
import importlib.util
import os
import shutil
import sys


def needs(program):
    """What is missing on this machine."""
    if sys.version_info < (3, 11):
        yield "Python 3.11 or later, for its module tomllib"
    if program and not os.access(program, os.X_OK):
        yield f"{program} (make prove builds it, and make gate)"
    if not program and importlib.util.find_spec("jsonschema") is None:
        yield "the Python module jsonschema (apt-get install python3-jsonschema)"
    if not program and not any(map(shutil.which, ("cc", "gcc", "clang"))):
        yield "a C compiler (apt-get install gcc)"


def main():
    program = sys.argv[1] if sys.argv[1:] else None
    missing = list(needs(program))
    if missing:
        print(f"make {'rows-python' if program else 'rows'} needs: " + "; ".join(missing))
    return 1 if missing else 0


sys.exit(main())
