"""Times `trace` where it has most to do: loops of 65,536 steps, and string instructions over 64 KiB.

Usage: trace_speed.py PROGRAM. Prints a row of docs/BOUNDS.md for each kind: seconds of processor, MiB, and bytes of text.
"""

import struct
import subprocess
import sys
import tempfile
from pathlib import Path

from elf_files import READ_EXECUTE, READ_WRITE, ElfFile

CODE, DATA, LONG = 0x08049000, 0x08100000, 0x20000


def load(register, value):
    """mov register, value"""
    return bytes([0xB8 + register]) + struct.pack("<I", value)


def repeated(body):
    """body, then a jump back to it"""
    return body + b"\xeb" + struct.pack("<b", -2 - len(body))


COPIES = load(6, DATA) + load(7, DATA + LONG // 2) + load(1, 65536)

KINDS = [("inc eax, jmp", repeated(b"\x40")),
         ("push eax, pop ecx, jmp", repeated(b"\x50\x59")),
         ("add [ebx], eax over 65,536 places", load(3, DATA) + repeated(b"\x01\x03\x43")),
         ("xor, div, mul, imul, shl, jmp", load(3, 3) + repeated(b"\x31\xd2\xf7\xf3\xf7\xe3\x0f\xaf\xc1\xc1\xe1\x05")),
         ("rep movsb of 64 KiB", COPIES + b"\xf3\xa4\xf4"),
         ("rep movsd of 64 KiB", load(6, DATA) + load(7, DATA + LONG // 2) + load(1, 16384) + b"\xf3\xa5\xf4"),
         ("std, rep movsb of 64 KiB", load(6, DATA + 65535) + load(7, DATA + LONG - 1) + load(1, 65536) + b"\xfd\xf3\xa4\xf4"),
         ("rep movsb of 64 KiB, 250 times", repeated(COPIES + b"\xf3\xa4"))]


def file_of(code):
    file = ElfFile(CODE)
    file.add_segment(file.add(code), CODE, len(code), READ_EXECUTE)
    file.add_segment(file.add(bytes(16)), DATA, LONG, READ_WRITE)
    return file.written(0)


def main():
    program = sys.argv[1]
    with tempfile.TemporaryDirectory() as folder:
        path = Path(folder) / "image"
        for name, code in KINDS:
            path.write_bytes(file_of(code))
            done = subprocess.run(["/usr/bin/time", "-f", "%U %S %M", program, "trace", path, "--steps", "1250" if "250" in name else "65536"], capture_output=True, text=True)
            user, system, memory = done.stderr.split()[-3:]
            last = done.stdout.splitlines()[-1:]
            print(f"| {name} | {float(user) + float(system):.2f} | {int(memory) // 1024} | {len(done.stdout)} | {last[0] if last else done.returncode} |")


if __name__ == "__main__":
    main()
