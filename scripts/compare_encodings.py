#!/usr/bin/env python3
"""Compares `surf list` with `objdump -D -M intel` over made encodings: each opcode that surf decodes, with each ModRM,
with many SIB bytes, and with prefixes in many orders; and random bytes of a fixed seed.

It needs no compiler. The files are made in a temporary folder that is deleted. Run it as
`scripts/compare_encodings.py [--surf PATH]`; it ends with status 1 where the two differ, and with 0 where objdump is
missing (Debian: binutils).
"""

import argparse
import os
import random
import shutil
import sys
import tempfile

import elf_files
import objdump_text
from list_comparison import SURF, Comparison, ListFailed, Stretch, listed, print_summary

CODE = 0x08048000

# The room of an encoding, which ends with bytes that are instructions by themselves.
SLOT = 16

# What stands for displacements and immediates: bytes with the high bit set or not, each an instruction by itself where
# it is left over; and zeros.
TAILS = [bytes.fromhex("fc41999055c947fc"), bytes.fromhex("41fc559990c947fc"), bytes(8)]

PREFIX_BYTES = bytes.fromhex("26 2e 36 3e 64 65 66 67 f0 f2 f3")

PREFIXES = [bytes.fromhex(text) for text in (
    "66", "65", "2e", "3e", "f3", "6665", "6566", "662e", "2e66", "3e66", "66f3", "f366", "2e3e", "3e2e", "6565",
    "6666662e", "f32e", "2ef3", "65f3", "f365", "6665f3", "66f32e")]

# An opcode that has F3 before it.
ENDBR32 = bytes.fromhex("f30f1efb")

# ModRM bytes with each digit in memory and in a register: no displacement, an address alone, displacements of 8 and of
# 32 bits, and SIB.
SOME_MODRM = [0x03, 0x0D, 0x54, 0x9D, 0x26, 0x6B, 0x34, 0xBE, 0xC0, 0xC9, 0xD1, 0xDA, 0xE3, 0xE8, 0xF7, 0xFE]

SOME_SIB = [0x00, 0x0D, 0x12, 0x20, 0x24, 0x25, 0x48, 0x65, 0x6D, 0x91, 0xA4, 0xA5, 0xC5, 0xDC, 0xE4, 0xFF]


def opcodes():
    """Opcodes of one byte and of two, each as bytes."""
    one = [bytes([byte]) for byte in range(256) if byte != 0x0F and byte not in PREFIX_BYTES]
    return one + [bytes([0x0F, byte]) for byte in range(256)]


def slot(encoding, tail):
    return (encoding + tail).ljust(SLOT, b"\x90")


def written(folder, name, slots):
    """Two files with the slots: an executable, and the bytes alone."""
    elf = elf_files.ElfFile(CODE)
    code = elf.add(b"".join(slots))
    elf.add_segment(code, CODE, code.size, elf_files.READ_EXECUTE)
    paths = os.path.join(folder, name), os.path.join(folder, f"{name}.code")
    for path, content in zip(paths, (elf.written(0), elf.content)):
        with open(path, "wb") as file:
            file.write(content)
    return paths


def is_decoded(surf, path, number):
    return bool(listed(surf, path, CODE + SLOT * number, 1))


def decoded_opcodes(surf, folder):
    """The opcodes that surf decodes with some digit of ModRM, in memory or in a register."""
    modrms = [*range(0x01, 0x40, 8), *range(0xC1, 0x100, 8)]
    tries = [(opcode, modrm) for opcode in opcodes() for modrm in modrms]
    path, _ = written(folder, "opcodes", [slot(opcode + bytes([modrm]), TAILS[0]) for opcode, modrm in tries])
    found = []
    for number, (opcode, _) in enumerate(tries):
        if opcode not in found and is_decoded(surf, path, number):
            found.append(opcode)
    return found


def has_sib(modrm):
    return modrm < 0xC0 and modrm % 8 == 4


def with_all_modrm(opcode):
    return [slot(opcode + bytes([modrm]), TAILS[0]) for modrm in range(256)]


def with_some_modrm(opcode, tail):
    return [slot(opcode + bytes([modrm]), tail) for modrm in SOME_MODRM]


def with_sib(opcode, sibs):
    return [slot(opcode + bytes([modrm, sib]), TAILS[1]) for modrm in (0x04, 0x54, 0xA4) for sib in sibs]


def random_slots(count):
    chance = random.Random(1)
    return [slot(chance.randbytes(SLOT - 1), b"") for _ in range(count)]


def sets_of_slots(found):
    """Named lists of slots."""
    yield "random bytes", random_slots(4096)
    yield "endbr32", [slot(prefix + ENDBR32, TAILS[0]) for prefix in [b"", *PREFIXES]]
    yield "all ModRM", [each for opcode in found for each in with_all_modrm(opcode)]
    for tail in TAILS[1:]:
        yield f"tail {tail.hex()}", [each for opcode in found for each in with_some_modrm(opcode, tail)]
    yield "some SIB", [each for opcode in found for each in with_sib(opcode, SOME_SIB)]
    yield "all SIB", with_sib(b"\x8b", range(256)) + with_sib(b"\x8d", range(256))
    for prefix in PREFIXES:
        slots = [each for opcode in found for each in with_some_modrm(prefix + opcode, TAILS[0])]
        yield f"prefix {prefix.hex()}", slots


def compare_slots(comparison, folder, name, slots):
    path, code = written(folder, name.replace(" ", "-"), slots)
    instructions = objdump_text.disassembled_code(code, CODE)
    comparison.compare_stretch(path, name, Stretch("slots", instructions))
    comparison.tally.files += 1
    for each in (path, code):
        os.remove(each)


def arguments():
    parser = argparse.ArgumentParser(description=__doc__, formatter_class=argparse.RawDescriptionHelpFormatter)
    parser.add_argument("--surf", default=SURF, metavar="PATH", help="the program (default: surf of this repository)")
    parser.add_argument("--shown", type=int, default=50, metavar="N", help="how many of each list are printed")
    return parser.parse_args()


def compare_all(comparison):
    with tempfile.TemporaryDirectory() as folder:
        found = decoded_opcodes(comparison.surf, folder)
        print(f"opcodes decoded: {len(found)}")
        for name, slots in sets_of_slots(found):
            compare_slots(comparison, folder, name, slots)


def main():
    asked = arguments()
    if shutil.which("objdump") is None:
        print("skipped: objdump is missing")
        return 0
    comparison = Comparison(asked.surf)
    try:
        compare_all(comparison)
    except ListFailed as failure:
        print(failure)
        return 1
    print_summary(comparison.tally, asked.shown)
    return 1 if comparison.tally.differences else 0


if __name__ == "__main__":
    sys.exit(main())
