#!/usr/bin/env python3
"""Compares `surf list` with `objdump -d -M intel` over the functions of small C programs.

The programs of scripts/samples are compiled by `gcc -m32` at several levels, at fixed addresses and
position-independent, in a temporary folder that is deleted. Run it as `scripts/compare_list.py [--surf PATH]`; it ends
with status 1 where the two differ, and with 0 where gcc, its 32-bit libraries or objdump are missing (Debian:
gcc-multilib, binutils).
"""

import argparse
import glob
import os
import shutil
import subprocess
import sys
import tempfile

from list_comparison import SURF, Comparison, ListFailed, print_summary

SAMPLES = os.path.join(os.path.dirname(os.path.abspath(__file__)), "samples")

LEVELS = ["-O0", "-O1", "-O2", "-Os"]

PLACEMENTS = {"fixed": ["-fno-pic", "-no-pie"], "moved": ["-fpie", "-pie"]}


def arguments():
    parser = argparse.ArgumentParser(description=__doc__, formatter_class=argparse.RawDescriptionHelpFormatter)
    parser.add_argument("--surf", default=SURF, metavar="PATH", help="the program (default: surf of this repository)")
    parser.add_argument("--shown", type=int, default=50, metavar="N", help="how many of each list are printed")
    parser.add_argument("--static", action="store_true", help="take in one program linked with the C library")
    return parser.parse_args()


def compiled(source, options, folder, name):
    """The path of the program made of a source, or None where it can't be made."""
    path = os.path.join(folder, name)
    outcome = subprocess.run(["gcc", "-m32", *options, source, "-o", path], capture_output=True, text=True)
    if outcome.returncode != 0:
        print(outcome.stderr, file=sys.stderr)
        return None
    return path


def missing_tool(folder):
    """What the comparison lacks on this machine, if anything."""
    for tool in ("gcc", "objdump"):
        if shutil.which(tool) is None:
            return tool
    source = os.path.join(folder, "empty.c")
    with open(source, "w") as file:
        file.write("#include <stdio.h>\nint main(void) { return puts(\"\"); }\n")
    outcome = subprocess.run(["gcc", "-m32", source, "-o", os.path.join(folder, "empty")], capture_output=True)
    return "gcc -m32" if outcome.returncode != 0 else None


def builds(has_static):
    """A name, a source and gcc's options for each program."""
    for source in sorted(glob.glob(os.path.join(SAMPLES, "*.c"))):
        stem = os.path.splitext(os.path.basename(source))[0]
        for level in LEVELS:
            for placement, options in PLACEMENTS.items():
                yield f"{stem}{level}-{placement}", source, [level, *options]
    if has_static:
        yield "varargs-static", os.path.join(SAMPLES, "varargs.c"), ["-O2", "-static", "-no-pie"]


def compare_builds(comparison, folder, has_static):
    """Compares each program, and says whether all could be made and listed."""
    is_whole = True
    for name, source, options in builds(has_static):
        path = compiled(source, options, folder, name)
        try:
            if path is None:
                raise ListFailed(f"{name}: not compiled")
            comparison.compare_file(path, name)
        except ListFailed as failure:
            print(failure)
            is_whole = False
    return is_whole


def main():
    asked = arguments()
    with tempfile.TemporaryDirectory() as folder:
        missing = missing_tool(folder)
        if missing is not None:
            print(f"skipped: {missing} is missing")
            return 0
        comparison = Comparison(asked.surf)
        is_whole = compare_builds(comparison, folder, asked.static)
    print_summary(comparison.tally, asked.shown)
    return 0 if is_whole and not comparison.tally.differences else 1


if __name__ == "__main__":
    sys.exit(main())
