#!/usr/bin/env python3
"""Compares `surf list`, and `surf slice` of straight code, with a model, over made files of which fields are changed.

The model is `image_model.py`. The files have code of moves, additions and returns, into which relocations of each kind
write; half of them have some fields of their tables changed, or are cut off. They are made from a seed and deleted. Run it
as `scripts/compare_images.py [--surf PATH] [--count N] [--seed N]`; it ends with status 1 where the two differ.
"""

import argparse
import collections
import os
import random
import struct
import subprocess
import sys
import tempfile

import image_model
from list_comparison import SURF

REGISTERS = ["eax", "ecx", "edx", "ebx", "esp", "ebp", "esi", "edi"]

ESP = 4

MOST_STRAIGHT = 4096

STEPS = 1000

# Numbers at which a check turns.
EDGES = [0, 1, 2, 3, 4, 7, 8, 9, 11, 31, 32, 33, 39, 40, 41, 51, 52, 53, 64, 65, 0xFF, 0x100, 0xFFF, 0x1000, 1024, 1025, 0xFFFF,
         0x08049000, 0x3FFFFF, 0x400000, 0x4000000, 0x4000001, 0x7FBFFFFF, 0x7FFFFFF8, 0x7FFFFFFF, 0x80000000, 0xFFFFFFFF]


def code_of(rng):
    """Instructions as bytes, mostly straight code."""
    found = []
    for _ in range(rng.randrange(1, 24)):
        kind = rng.random()
        if kind < 0.5:
            found.append(bytes([0xB8 + rng.randrange(8)]) + rng.randbytes(4))
        elif kind < 0.92:
            found.append(bytes([rng.choice([0x89, 0x01]), 0xC0 + rng.randrange(64)]))
        else:
            found.append(rng.choice([b"\xc3", b"\x90", b"\xf4"]))
    return found + [b"\xc3"]


class Maker:
    """One file in the making: where it may be changed is noted."""

    def __init__(self, rng):
        self.rng = rng
        self.base = rng.choice([0x08049000, 0x1000, 0x00BFF000, 0x7FFFF000 - 0x400000])
        self.instructions = code_of(rng)
        self.moves = []
        self.starts = []
        at = self.base
        for instruction in self.instructions:
            self.starts.append(at)
            if instruction[0] & 0xF8 == 0xB8:
                self.moves.append(at + 1)
            at += len(instruction)
        self.code = b"".join(self.instructions)
        self.data = self.base + 0x100000 if self.base < 0x7F000000 else self.base - 0x100000

    def relocations(self, symbols):
        rng = self.rng
        places = self.moves + [self.data, self.data + 2, self.data + 12, self.data + 13, self.base - 4]
        weights = [3] * len(self.moves) + [1, 1, 0.3, 0.05, 0.05]
        kinds, kind_weights = [0, 1, 5, 6, 7, 8, 2, 14], [2, 6, 2, 4, 4, 4, 0.05, 0.05]
        found = b""
        for _ in range(rng.randrange(8)):
            place = rng.choices(places, weights)[0] % 2 ** 32
            symbol = rng.randrange(symbols) if rng.random() < 0.99 else symbols
            found += struct.pack("<II", place, symbol << 8 | rng.choices(kinds, kind_weights)[0])
        return found

    def symbols(self, count):
        rng = self.rng
        found = bytes(16)
        for _ in range(count - 1):
            found += struct.pack("<IIIBBH", rng.choice([0, 1, 3, 9]), rng.choice([0, 5, self.data, 0xFFFFFFFF]),
                                 rng.choice([0, 1, 4, 6, 40, 0xFFFFFFFF]), 0x12, 0, rng.choice([0, 0, 1, 5]))
        return found

    def file(self):
        """The file's bytes."""
        rng = self.rng
        count = rng.randrange(1, 5)
        contents = [self.code, bytes(range(16)), self.relocations(count), self.symbols(count), self.relocations(count),
                    self.symbols(count), b"\0a\0printf\0"]
        programs, sections = 2, 7
        offset = 52 + 32 * programs + 40 * sections
        parts = []
        for content in contents:
            parts.append((offset, len(content)))
            offset += len(content)
        entry = rng.choice(self.starts) if rng.random() < 0.9 else rng.choice([self.base + len(self.code), self.data, 0])
        header = b"\x7fELF\x01\x01\x01".ljust(16, b"\0") + struct.pack(
            "<HHIIIIIHHHHHH", rng.choice([2, 2, 3]), 3, 1, entry, 52, 52 + 32 * programs, 0, 52, 32, programs, 40, sections, 0)
        table = struct.pack("<8I", 1, parts[0][0], self.base, 0, parts[0][1], parts[0][1] + rng.choice([0, 0, 3]), 5, 1)
        table += struct.pack("<8I", 1, parts[1][0], self.data, 0, 16, 16, 6, 1)
        kinds = [(0, (0, 0), 0), (9, parts[2], 2), (11, parts[3], 6), (9, parts[4], rng.choice([5, 2])), (1, (0, 0), 0),
                 (11, parts[5], 6), (3, parts[6], 0)]
        for kind, part, link in kinds:
            table += struct.pack("<10I", 0, kind, 0, 0, part[0], part[1], link, 0, 0, 0)
        file = bytearray(header + table + b"".join(contents))
        if rng.random() < 0.5:
            self.change(file, 52 + 32 * programs + 40 * sections)
        return bytes(file)

    def change(self, file, tables):
        """Changes some fields of the tables, or cuts the file off."""
        rng = self.rng
        for _ in range(rng.randrange(1, 4)):
            near = rng.choice([len(file), len(file) - tables, self.base, self.data, self.base + 1, self.data + 16])
            value = rng.choice(EDGES + [near, near + 1, near - 1] * 4) % 2 ** 32
            if rng.random() < 0.1:
                del file[rng.randrange(len(file)):]
            elif rng.random() < 0.6:
                at = 4 * rng.randrange(tables // 4)
                if at + 4 <= len(file):
                    struct.pack_into("<I", file, at, value)
            else:
                at = 2 * rng.randrange(26)
                if at + 2 <= len(file):
                    struct.pack_into("<H", file, at, value & 0xFFFF)


def window(image, at):
    found = b""
    while len(found) < 15 and image.code_byte(at + len(found)) is not None:
        found += bytes([image.code_byte(at + len(found))])
    return found


def decoded(code, at):
    """The length and the text of an instruction of the few forms that the model knows; None where it knows none."""
    if code[:1] in (b"\xc3", b"\x90", b"\xf4"):
        return 1, {0xC3: "ret", 0x90: "nop", 0xF4: "hlt"}[code[0]]
    if len(code) >= 2 and code[0] in (0x89, 0x01) and code[1] >= 0xC0:
        name = "mov" if code[0] == 0x89 else "add"
        return 2, f"{name} {REGISTERS[code[1] & 7]}, {REGISTERS[code[1] >> 3 & 7]}"
    if len(code) >= 5 and code[0] & 0xF8 == 0xB8:
        return 5, f"mov {REGISTERS[code[0] & 7]}, 0x{int.from_bytes(code[1:5], 'little'):x}"
    return None


def unknown(code):
    """The bytes may spell an instruction of which the model knows nothing."""
    known = {0xC3, 0x90, 0xF4} | set(range(0xB8, 0xC0))
    return bool(code) and code[0] not in known and not (code[0] in (0x89, 0x01) and (len(code) < 2 or code[1] >= 0xC0))


def list_of(image, at):
    """The text of a list, or None where the model can't tell."""
    lines = []
    while len(lines) < STEPS and at < 2 ** 32:
        code = window(image, at)
        instruction = decoded(code, at)
        if instruction is None:
            if unknown(code):
                return None
            break
        lines.append(f"{at:08x} {instruction[1]}")
        at += instruction[0]
    return "".join(line + "\n" for line in lines + [f"end {len(lines)}"])


def is_code(image, at):
    return any(s.start <= at < s.end and s.flags & image_model.EXECUTE for s in image.segments)


def straight(image):
    """The straight code from the entry on as (address, written, read), or the address where it isn't straight."""
    at, found = image.entry, []
    for _ in range(MOST_STRAIGHT):
        code = window(image, at)
        if code[:1] == b"\xc3":
            return found + [(at, set(), set())], None
        if len(code) >= 5 and code[0] & 0xF8 == 0xB8 and code[0] & 7 != ESP:
            found.append((at, {code[0] & 7}, set()))
            at += 5
        elif len(code) >= 2 and code[0] in (0x89, 0x01) and code[1] >= 0xC0 and ESP not in (code[1] & 7, code[1] >> 3 & 7):
            to, source = code[1] & 7, code[1] >> 3 & 7
            found.append((at, {to}, {source} if code[0] == 0x89 else {to, source}))
            at += 2
        else:
            return None, at
    return None, at


def slice_of(instructions, criterion):
    """The addresses on which the criterion depends by last writers, itself included."""
    last, depends = {}, {}
    for at, writes, reads in instructions:
        depends[at] = {at}.union(*(depends[last[r]] for r in reads if r in last))
        last.update((r, at) for r in writes)
    return sorted(depends[criterion])


def wanted(file, words):
    """The status, the output and the error line that a request should have; None where the model can't tell."""
    try:
        image = image_model.loaded(file)
    except image_model.Refused as refused:
        return 4, "", f"surf: image {refused}\n"
    if not is_code(image, image.entry):
        return 5, "", "surf: absent entry\n"
    if words[0] == "list":
        at = int(words[2], 16) if len(words) > 1 else image.entry
        if not is_code(image, at):
            return 5, "", f"surf: absent {at:08x}\n"
        text = list_of(image, at)
        return None if text is None else (0, text, "")
    instructions, stop = straight(image)
    if stop is not None:
        return None
    at = int(words[2], 16)
    if at not in [i[0] for i in instructions]:
        return 5, "", f"surf: absent {at:08x}\n"
    found = slice_of(instructions, at)
    lines = [f"slice {at:08x} round 0 lane 2"] + [f"{a:08x}" for a in found] + [f"end {len(found)} addresses 0 warnings"]
    return 0, "".join(line + "\n" for line in lines), ""


def requests(maker, rng):
    at = rng.choice(maker.starts + [maker.base + 1, maker.data]) + rng.choice([0, 0, 0x400000])
    return [["list"], ["list", "--at", f"0x{at:x}"], ["slice", "--at", f"0x{at:x}", "--round", "0"]]


def main():
    parser = argparse.ArgumentParser(description=__doc__, formatter_class=argparse.RawDescriptionHelpFormatter)
    parser.add_argument("--surf", default=SURF, metavar="PATH", help="the program (default: surf of this repository)")
    parser.add_argument("--count", type=int, default=2000, metavar="N", help="how many files")
    parser.add_argument("--seed", type=int, default=1, metavar="N")
    options = parser.parse_args()
    rng = random.Random(options.seed)
    outcomes, differences = collections.Counter(), 0
    with tempfile.TemporaryDirectory() as folder:
        path = os.path.join(folder, "file")
        for _ in range(options.count):
            maker = Maker(rng)
            file = maker.file()
            with open(path, "wb") as out:
                out.write(file)
            for words in requests(maker, rng):
                want = wanted(file, words)
                ended = subprocess.run([options.surf, words[0], path, *words[1:]], capture_output=True, text=True)
                got = (ended.returncode, ended.stdout, ended.stderr)
                outcomes["not compared" if want is None else f"status {got[0]} {got[2].split()[2] if got[0] == 4 else ''}".strip()] += 1
                if want is not None and got != want:
                    differences += 1
                    print(f"{file.hex()}\n{' '.join(words)}\n    model: {want}\n    surf:  {got}")
                    if differences >= 20:
                        sys.exit(1)
    for outcome, count in sorted(outcomes.items()):
        print(f"{count:8} {outcome}")
    print(f"files {options.count}, differences {differences}")
    sys.exit(1 if differences else 0)


if __name__ == "__main__":
    main()
