#!/usr/bin/env python3
"""Compares the answers of two programs that take surf's words, over made executables and over programs of gcc.

Usage: compare_answers.py PROGRAM PEER [COUNT] [SEED]. Each of COUNT made executables (300) is asked each OP on a round, with random
options: any lane, round, entry and address. Then the programs of scripts/samples are compiled by gcc -m32 at four levels, with and
without -pie, and asked the same from `main` on. Where the two differ in status or text, the file is kept under /tmp and named with the
words. It needs gcc with -m32, nm and objcopy.
"""

import subprocess
import sys
import tempfile
from collections import Counter
from pathlib import Path

from compare_list import builds, compiled
from made_programs import CODE, made_files, seeded

ADDRESSED = ["slice", "values", "forward", "chop", "why", "matched"]

PLAIN = ["locations", "graph"]

EXTERN_KINDS = ["custom:pure2", "custom:fills12", "custom:alloc,rand:reader1", "custom:stop", "custom:reader3,puts:pure0"]

SECONDS = 60


def answer(program, words):
    """The status and the texts, or that it took too long."""
    try:
        done = subprocess.run([program, *words], capture_output=True, timeout=SECONDS)
    except subprocess.TimeoutExpired:
        return "late", b"", b""
    return done.returncode, done.stdout, done.stderr


def options(source):
    words = []
    if source.random() < 0.8:
        words += ["--lane", str(source.randrange(4))]
    if source.random() < 0.6:
        words += ["--round", str(source.choice([0, 0, 0, 1, 1, 2, 3, 5]))]
    if source.random() < 0.3:
        words += ["--rounds", str(source.randrange(1, 9))]
    if source.random() < 0.5:
        words.append("--skip-sp")
    if source.random() < 0.3:
        words += ["--extern", source.choice(EXTERN_KINDS)]
    return words


def question(source, operations, path, places):
    """The words of one question; places are addresses that an instruction may have."""
    operation = source.choice(operations)
    words = [operation, str(path)]
    if operation in ADDRESSED:
        words += ["--at", f"{source.choice(places):#x}"]
    if operation in ("chop", "why"):
        words += ["--from", f"{source.choice(places):#x}"]
    return words + options(source)


def listed(program, path, entry):
    """The addresses of the instructions from the entry on."""
    text = answer(program, ["list", str(path), "--steps", "400", *entry])[1].decode()
    return [int(line.split()[0], 16) for line in text.splitlines()[:-1]] or [CODE]


class Comparison:
    def __init__(self, program, peer):
        self.program, self.peer = program, peer
        self.agreed, self.asked, self.statuses, self.kept = 0, 0, Counter(), 0

    def compare(self, words, path):
        mine, other = answer(self.program, words), answer(self.peer, words)
        self.asked += 1
        if mine == other:
            self.agreed += 1
            self.statuses[words[0], mine[0]] += 1
            return
        self.kept += 1
        kept = Path(f"/tmp/answer-{self.kept}.elf")
        kept.write_bytes(path.read_bytes())
        print(f"differs: {words[0]} {kept} {' '.join(words[2:])}: {mine[0]} {other[0]} {mine[2]!r} {other[2]!r}")
        for one, two in zip(mine[1].splitlines(), other[1].splitlines()):
            if one != two:
                print(f"  {one.decode()[:160]} | {two.decode()[:160]}")
                break

    def ask(self, source, path, entry, count):
        places = listed(self.peer, path, entry)
        operations = ["slice", "slice", "values", *ADDRESSED[2:], *PLAIN]
        for _ in range(count):
            self.compare(question(source, operations, path, places) + entry, path)


def main():
    program, peer = sys.argv[1:3]
    count, source = int(sys.argv[3]) if len(sys.argv) > 3 else 300, seeded(sys.argv, 4)
    comparison = Comparison(program, peer)
    with tempfile.TemporaryDirectory() as name:
        folder = Path(name)
        for code, file in made_files(source, folder, count):
            path = folder / "image"
            path.write_bytes(file)
            comparison.ask(source, path, [], 4)
        print(f"made programs: {comparison.agreed} of {comparison.asked} answers agree", flush=True)
        for name, text, flags in builds(False):
            path = compiled(text, flags, name=name, folder=folder)
            if path is not None:
                comparison.ask(source, Path(path), ["--entry", "main"], 4)
    print(f"{comparison.agreed} of {comparison.asked} answers agree")
    print(", ".join(f"{operation} {status}: {times}" for (operation, status), times in sorted(comparison.statuses.items(), key=str)))
    sys.exit(comparison.agreed != comparison.asked)


if __name__ == "__main__":
    main()
