#!/usr/bin/env python3
"""Checks slices against runs: each address of a dynamic slice must stand in the slice of each round without warnings.

Usage: check_slices.py PROGRAM [COUNT] [RUNS] [SEED]. Of each of COUNT made executables (100) and of the programs of scripts/samples,
compiled by gcc -m32 and entered at their functions, some addresses are chosen that a run comes to. For each, RUNS runs (20) of the machine
with other seeds tell a dynamic slice; the slices of round 0 and of the last round, in lanes 0 to 3, with and without ESP, must have its
addresses wherever they warn of nothing. It needs gcc with -m32, nm and objcopy.
"""

import subprocess
import sys
import tempfile
from pathlib import Path

from compare_list import builds, compiled
from made_programs import made_files, seeded

STEPS = "3000"

CRITERIA = 2


def lines(program, words):
    done = subprocess.run([program, *words], capture_output=True, text=True)
    return done.returncode, done.stdout.splitlines()


def steps_of(program, image, options):
    """The addresses that a run comes to."""
    _, told = lines(program, ["trace", image, "--steps", STEPS, *options])
    return [line.split()[1] for line in told[1:-1]]


def dynamic_slice(program, image, at, options):
    """The addresses of the dynamic slice; none where the run doesn't come to the address."""
    status, told = lines(program, ["trace", image, "--at", at, "--steps", STEPS, *options])
    if status != 0:
        return []
    first = next(k for k, line in enumerate(told) if line.startswith("dynamic"))
    return told[first + 1:-1]


def quiet_slice(program, image, at, options):
    """The addresses of a slice without warnings, or None."""
    status, told = lines(program, ["slice", image, "--at", at, *options])
    return set(told[1:-1]) if status == 0 else None


class Check:
    def __init__(self, program, runs):
        self.program, self.runs = program, runs
        self.slices, self.dynamic, self.addresses, self.missing = 0, 0, 0, 0

    def one(self, image, at, entry, source):
        for skip in ([], ["--skip-sp"]):
            quiet = {}
            for lane in "0123":
                for number in (["--round", "0"], []):
                    found = quiet_slice(self.program, image, at, ["--lane", lane, *number, *skip, *entry])
                    if found is not None:
                        quiet[lane, *number] = found
            self.slices += len(quiet)
            if not quiet:
                continue
            for _ in range(self.runs):
                seed = str(source.getrandbits(32))
                told = dynamic_slice(self.program, image, at, ["--seed", seed, *skip, *entry])
                self.dynamic += bool(told)
                self.addresses += len(told) * len(quiet)
                for key, found in quiet.items():
                    for address in set(told) - found:
                        self.missing += 1
                        print(f"missing: {image} {at} {' '.join(key)} {' '.join(skip + entry)} seed {seed}: {address}")

    def program_of(self, image, entry, source):
        places = steps_of(self.program, image, ["--seed", str(source.getrandbits(32)), *entry])
        for _ in range(CRITERIA if places else 0):
            self.one(image, f"0x{source.choice(places)}", entry, source)


def functions(path):
    """The names of a program's own functions."""
    table = subprocess.run(["nm", path], capture_output=True, text=True).stdout
    found = [line.split()[2] for line in table.splitlines() if len(line.split()) == 3 and line.split()[1] in "Tt"]
    return [name for name in found if not name.startswith(("_", ".")) and "." not in name and name not in ("deregister_tm_clones", "register_tm_clones", "frame_dummy")]


def main():
    program = sys.argv[1]
    count, runs = (int(sys.argv[k]) if len(sys.argv) > k else usual for k, usual in ((2, 100), (3, 20)))
    source, check = seeded(sys.argv, 4), Check(program, runs)
    with tempfile.TemporaryDirectory() as name:
        folder = Path(name)
        for _, file in made_files(source, folder, count):
            path = folder / "image"
            path.write_bytes(file)
            check.program_of(str(path), [], source)
        for name, text, flags in builds(False):
            path = compiled(text, flags, folder, name)
            for function in functions(path) if path else []:
                check.program_of(path, ["--entry", function], source)
    print(f"{check.slices} slices without warnings, {check.dynamic} dynamic slices, {check.addresses} addresses looked for, {check.missing} missing")
    sys.exit(check.missing != 0)


if __name__ == "__main__":
    main()
