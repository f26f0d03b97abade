"""same_reports.py PLAIN FOLDER: runs each set-up in the folders of FOLDER that has a report beside it through the plain
program, which has to write that report, byte for byte; set-ups of a format or a profile that it does not take are left
out."""

import pathlib
import subprocess
import sys

NOT_TAKEN = 5


def main():
    plain, folder = sys.argv[1:]
    same = left_out = 0
    for report in sorted(pathlib.Path(folder).glob("*/*.report")):
        setup = report.with_suffix(".toml")
        ran = subprocess.run([plain, "check", setup], stdout=subprocess.PIPE)
        if ran.returncode == NOT_TAKEN:
            left_out += 1
        elif ran.stdout != report.read_bytes():
            sys.exit(f"{setup}: another report")
        else:
            same += 1
    print(f"{same} reports in plain Rust are the same, {left_out} set-ups left out")


main()
