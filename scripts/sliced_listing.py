#!/usr/bin/env python3
"""Prints a listing with the instructions of a slice marked, and the lines of the source beside them.

Usage: sliced_listing.py [--surf PATH] [--all] IMAGE ADDR [OPTION..]. OPTION are words for surf, as --entry main or --skip-sp. Each
run of instructions that holds a marked one is printed, from the first marked one to the last, with `>` before the marked ones; with
--all some lines around it too. Where the file has line numbers and `addr2line` is there, a line of the source stands above its
first instruction.
"""

import argparse
import shutil
import subprocess
import sys

from draw_graph import answer, marked_addresses
from list_comparison import SURF

# Marked instructions so near each other, in bytes, are printed in one run.
NEAR = 64


def arguments():
    parser = argparse.ArgumentParser(description=__doc__, formatter_class=argparse.RawDescriptionHelpFormatter)
    parser.add_argument("--surf", default=SURF, metavar="PATH", help="the program (default: surf of this repository)")
    parser.add_argument("--all", action="store_true", help="print eight more instructions behind each run")
    parser.add_argument("image")
    parser.add_argument("address")
    return parser.parse_known_args()


def runs(addresses):
    """The marked addresses, cut where two lie far apart."""
    run = []
    for at in sorted(addresses):
        if run and at - run[-1] > NEAR:
            yield run
            run = []
        run.append(at)
    if run:
        yield run


def listing(surf, image, run, more):
    """The address and text of each instruction of a run."""
    done = subprocess.run([surf, "list", image, "--at", f"{run[0]:#x}", "--steps", "4096"], capture_output=True, text=True)
    behind = 0
    for line in done.stdout.splitlines()[:-1]:
        place, text = line.split(" ", 1)
        at = int(place, 16)
        if at > run[-1]:
            behind += 1
            if behind > more:
                break
        yield at, text


def sources(image, addresses):
    """The file and line of each address, where that is known."""
    if shutil.which("addr2line") is None:
        return {}
    done = subprocess.run(["addr2line", "-e", image, *[f"{at:#x}" for at in addresses]], capture_output=True, text=True)
    told = zip(addresses, (line.split(" (")[0] for line in done.stdout.splitlines()))
    return {at: place for at, place in told if "?" not in place}


def line_of(place, files):
    """The text of a line of the source, if the file can be read."""
    name, number = place.rsplit(":", 1)
    if name not in files:
        try:
            with open(name, encoding="utf-8", errors="replace") as file:
                files[name] = file.read().splitlines()
        except OSError:
            files[name] = []
    lines = files[name]
    return lines[int(number) - 1].strip() if 0 < int(number) <= len(lines) else ""


def main():
    given, options = arguments()
    reply = answer(given.surf, ["slice", given.image, "--at", given.address, *options])
    marked = marked_addresses(reply)
    files, last = {}, None
    for run in runs(marked):
        part = list(listing(given.surf, given.image, run, 8 if given.all else 0))
        places = sources(given.image, [at for at, _ in part])
        for at, text in part:
            place = places.get(at)
            if place is not None and place != last:
                print(f"  {place.rsplit('/', 1)[-1]}  {line_of(place, files)}")
                last = place
            print(f"{'>' if at in marked else ' '} {at:08x}  {text}")
        for at in (at for at in run if at not in {place for place, _ in part}):
            print(f"> {at:08x}  (no code: an extern, or a place inside another instruction)")
        print()
    print("\n".join(reply[len(marked) + 1:]))
    sys.exit(0)


if __name__ == "__main__":
    main()
