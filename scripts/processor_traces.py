"""Runs single instructions on the processor itself and by a program's `trace`, and compares what they leave.

Usage: processor_traces.py PROGRAM [COUNT] [SEED]. PROGRAM answers `trace IMAGE --seed S`; COUNT cases are made of each form (20).
It needs gcc with -m32. A case sets operands, executes one instruction and ends. The processor runs it in a small program that
loads and stores all registers and flags around it. For `trace` it becomes an image that compares each register, each
flag that the instruction defines and the operand in memory with what the processor left, and halts where one differs.
"""

import random
import struct
import subprocess
import sys
import tempfile
from pathlib import Path

from elf_files import ElfFile, READ_EXECUTE, READ_WRITE

CODE, DATA = 0x08049000, 0x0804A000

REGISTERS = ["eax", "ecx", "edx", "ebx", "esp", "ebp", "esi", "edi"]

# The flags in the order of the words of choice, and their bits in EFLAGS.
FLAGS = {"c": 0, "p": 2, "z": 6, "s": 7, "o": 11}

NAMES = {8: ["al", "cl", "dl", "bl", "ah", "ch", "dh", "bh"], 16: ["ax", "cx", "dx", "bx", "bp", "si", "di"],
         32: ["eax", "ecx", "edx", "ebx", "ebp", "esi", "edi"]}

SIZES = {8: "byte ptr", 16: "word ptr", 32: "dword ptr"}

CONDITIONS = ["o", "no", "b", "ae", "e", "ne", "be", "a", "s", "ns", "p", "np", "l", "ge", "le", "g"]

EDGES = [0, 1, 2, 0x7F, 0x80, 0xFF, 0x7FFF, 0x8000, 0xFFFF, 0x7FFFFFFF, 0x80000000, 0xFFFFFFFF]


def number(source):
    return source.choice(EDGES) if source.random() < 0.5 else source.getrandbits(32)


def memory(width):
    return f"{SIZES[width]} [{DATA:#x}]"


def place(source, width):
    """A register, or the operand in memory."""
    return memory(width) if source.random() < 0.3 else source.choice(NAMES[width])


def two(source, width):
    """A destination and a source, of which one may stand in memory and the second may be a number."""
    first = place(source, width)
    if source.random() < 0.3:
        return first, str(number(source) % 2 ** width)
    return first, source.choice(NAMES[width]) if "[" in first else place(source, width)


def pair(name):
    return lambda source, width: (f"{name} {', '.join(two(source, width))}", "cpzso")


def one(name, flags="cpzso"):
    return lambda source, width: (f"{name} {place(source, width)}", flags)


def shift(name, rotates):
    def form(source, width):
        count = source.choice([0, 1, 1, 2, 7, 8, 15, 16, 17, 31, 32, 33, source.randrange(256)])
        by_cl = source.random() < 0.5
        masked = count % 32
        flags = "cpzso"
        if masked != 0 and not (rotates or masked == 1):
            flags = flags.replace("o", "")
        if masked not in (0, 1) and rotates:
            flags = flags.replace("o", "")
        if masked >= width and name in ("shl", "shr"):
            flags = flags.replace("c", "")
        target = source.choice([n for n in NAMES[width] if n not in ("cl", "ch", "cx", "ecx")] + [memory(width)])
        if by_cl:
            return f"mov cl, {count}\n{name} {target}, cl", flags
        return f"{name} {target}, {count}", flags
    return form


def product(name):
    def form(source, width):
        return f"{name} {place(source, width)}", "co"
    return form


def factors(source, width):
    if width == 8:
        return f"imul {place(source, 8)}", "co"
    target, other = source.choice(NAMES[width]), place(source, width)
    if source.random() < 0.5:
        return f"imul {target}, {other}, {number(source) % 2 ** width}", "co"
    return f"imul {target}, {other}", "co"


def quotient(name):
    """The dividend is a product and a rest, so that most divisions are none of the processor's errors."""
    def form(source, width):
        signed = name == "idiv"
        top = 2 ** (width - 1) if signed else 2 ** width
        by = source.choice([1, 3, 7, top // 3, source.randrange(1, top)]) or 1
        result = source.randrange(top)
        rest = source.randrange(by)
        if signed and source.random() < 0.5:
            by = -by
        dividend = by * result + rest if by > 0 or not signed else by * result + rest
        if signed and by < 0 and rest and dividend > 0:
            dividend -= 2 * rest
        dividend %= 2 ** (2 * width)
        low, high = dividend % 2 ** width, dividend >> width
        if width == 8:
            setup = f"mov eax, {dividend}\nmov cl, {by % 256}\n{name} cl"
        else:
            a, d, c = ("ax", "dx", "cx") if width == 16 else ("eax", "edx", "ecx")
            setup = f"mov {a}, {low}\nmov {d}, {high}\nmov {c}, {by % 2 ** width}\n{name} {c}"
        return setup, ""
    return form


def extended(name):
    def form(source, width):
        wide = source.choice([w for w in (16, 32) if w > width])
        return f"{name} {source.choice(NAMES[wide])}, {place(source, width)}", "cpzso"
    return form


def moved(source, width):
    return f"cmov{source.choice(CONDITIONS)} {source.choice(NAMES[width])}, {place(source, width)}", "cpzso"


def strings(name, repeated):
    def form(source, width):
        letter = {8: "b", 16: "w", 32: "d"}[width]
        step = source.choice(["cld", "std"])
        count = source.choice([0, 1, 2, 3])
        start = DATA + 16
        target = start + source.choice([-6, -4, 0, 1, 3, 8])
        rep = "rep " if repeated else ""
        return f"{step}\nmov ecx, {count}\nmov esi, {start}\nmov edi, {target}\n{rep}{name}{letter}\ncld", "cpzso"
    return form


def loaded(source, width):
    scale = source.choice([1, 2, 4, 8])
    base, index = source.choice(NAMES[32]), source.choice(NAMES[32])
    return f"lea {source.choice(NAMES[width])}, [{base} + {index}*{scale} + {number(source):#x}]", "cpzso"


def chosen(source, width):
    return f"set{source.choice(CONDITIONS)} {place(source, 8)}", "cpzso"


FORMS = {name: (pair(name), (8, 16, 32)) for name in ["add", "or", "adc", "sbb", "and", "sub", "xor", "cmp", "mov"]}
FORMS |= {name: (one(name), (8, 16, 32)) for name in ["inc", "dec", "not", "neg"]}
FORMS |= {"test": (lambda s, w: (f"test {place(s, w)}, {s.choice([n for n in NAMES[w]])}", "cpzso"), (8, 16, 32)),
          "xchg": (lambda s, w: (f"xchg {place(s, w)}, {s.choice(NAMES[w])}", "cpzso"), (8, 16, 32)),
          "mul": (product("mul"), (8, 16, 32)), "imul": (product("imul"), (8, 16, 32)), "imul of two": (factors, (16, 32)),
          "div": (quotient("div"), (8, 16, 32)), "idiv": (quotient("idiv"), (8, 16, 32)),
          "movzx": (extended("movzx"), (8, 16)), "movsx": (extended("movsx"), (8, 16)), "cmov": (moved, (16, 32)),
          "set": (chosen, (8,)), "lea": (loaded, (32,)),
          "cwde": (lambda s, w: ("cwde", "cpzso"), (32,)),
          "cdq": (lambda s, w: ("cdq", "cpzso"), (32,)),
          "movs": (strings("movs", False), (8, 16, 32)), "rep movs": (strings("movs", True), (8, 16, 32)),
          "stos": (strings("stos", False), (8, 16, 32)), "rep stos": (strings("stos", True), (8, 16, 32)),
          "push, pop": (lambda s, w: (f"push {s.choice([n for n in NAMES[32]] + [memory(32)])}\npop {place(s, 32)}", "cpzso"), (32,))}
FORMS |= {name: (shift(name, name in ("rol", "ror")), (8, 16, 32)) for name in ["shl", "shr", "sar", "rol", "ror"]}


def words(seed, count):
    """The first words of choice of a seed."""
    made = []
    for _ in range(count):
        seed = (1664525 * seed + 1013904223) % 2 ** 32
        made.append(seed)
    return made


class Case:
    def __init__(self, name, width, text, flags, seed, data):
        self.name, self.width, self.text, self.flags, self.seed, self.data = name, width, text, flags, seed, data
        start = words(seed, 12)
        self.registers = dict(zip(["eax", "ecx", "edx", "ebx", "ebp", "esi", "edi"], start))
        self.eflags = 2 | sum((word >> 16 & 1) << FLAGS[flag] for flag, word in zip("cpzso", start[7:]))


def native_text(cases):
    """The program that executes each case between loading and storing all, and writes what they left."""
    lines = [".intel_syntax noprefix", ".section .operands, \"aw\"", "operands: .space 64", ".data", "stack_was: .long 0", ".text",
             ".globl _start", "_start:"]
    for n, case in enumerate(cases):
        lines += [f"mov esi, offset data{n}", "mov edi, offset operands", "mov ecx, 16", "rep movsd", "mov stack_was, esp"]
        lines += [f"push {case.eflags}"] + [f"mov {reg}, {value}" for reg, value in case.registers.items()] + ["popfd"]
        lines += [f"case{n}:", case.text, f"end{n}:", f"mov left{n} + 16, esp", f"mov esp, offset left{n} + 36", "pushfd"]
        lines += [f"mov left{n} + {4 * at}, {reg}" for at, reg in enumerate(REGISTERS) if reg != "esp"]
        lines += ["cld", "mov esp, stack_was", "mov esi, offset operands", f"mov edi, offset left{n} + 36", "mov ecx, 16", "rep movsd"]
    lines += ["mov eax, 4", "mov ebx, 1", "mov ecx, offset left0", f"mov edx, {100 * len(cases)}", "int 0x80", "mov eax, 1", "mov ebx, 0",
              "int 0x80", ".data"]
    for n, case in enumerate(cases):
        lines += [f"data{n}: .byte {', '.join(map(str, case.data))}"]
    lines += [".bss"] + [f"left{n}: .space 100" for n in range(len(cases))]
    return "\n".join(lines) + "\n"


def built(folder, cases):
    source, program = folder / "cases.s", folder / "cases"
    source.write_text(native_text(cases))
    subprocess.run(["gcc", "-m32", "-nostdlib", "-static", "-no-pie", "-Wl,--build-id=none", f"-Wl,--section-start=.operands={DATA:#x}",
                    "-Wl,-Ttext=0x09000000", "-Wl,-Tdata=0x0a000000", "-Wl,-Tbss=0x0b000000", "-o", program, source], check=True)
    table = subprocess.run(["nm", program], check=True, capture_output=True, text=True).stdout
    places = {name: int(value, 16) for value, _, name in (line.split() for line in table.splitlines())}
    image = program.with_suffix(".bin")
    subprocess.run(["objcopy", "-O", "binary", "-j", ".text", program, image], check=True)
    code = image.read_bytes()
    spans = [code[places[f"case{n}"] - 0x09000000:places[f"end{n}"] - 0x09000000] for n in range(len(cases))]
    left = subprocess.run([program], check=True, capture_output=True).stdout
    return spans, [left[100 * n:100 * n + 100] for n in range(len(cases))]


def image_of(case, code, left):
    """An image that executes the case, and halts where something isn't as the processor left it."""
    registers = struct.unpack("<8I", left[:32])
    eflags, data = struct.unpack("<I", left[32:36])[0], left[36:]
    checks = []
    for flag in case.flags:
        jump = {"c": 0x72, "p": 0x7A, "z": 0x74, "s": 0x78, "o": 0x70}[flag] + (eflags >> FLAGS[flag] & 1)
        checks.append(bytes([jump, 2, 0xEB, 1, 0xF4]))
    checks = [bytes([check[0] ^ 1, 1, 0xF4]) for check in checks]
    for at, value in enumerate(registers):
        if at != 4:
            checks.append(bytes([0x81, 0xF8 + at]) + struct.pack("<I", value) + bytes([0x74, 1, 0xF4]))
    for at in range(0, 64, 4):
        checks.append(bytes([0x81, 0x3D]) + struct.pack("<I", DATA + at) + data[at:at + 4] + bytes([0x74, 1, 0xF4]))
    checks.append(bytes([0x81, 0xFC]) + struct.pack("<I", 0xBFF0000C) + bytes([0x74, 1, 0xF4]))
    text = code + b"".join(checks) + b"\xC3"
    file = ElfFile(CODE)
    file.add_segment(file.add(text), CODE, len(text), READ_EXECUTE)
    file.add_segment(file.add(bytes(case.data)), DATA, 64, READ_WRITE)
    return file.written(0)


def main():
    program = sys.argv[1]
    count = int(sys.argv[2]) if len(sys.argv) > 2 else 20
    source = random.Random(int(sys.argv[3]) if len(sys.argv) > 3 else 1)
    cases = []
    for name, (form, widths) in FORMS.items():
        for width in widths:
            for _ in range(count):
                text, flags = form(source, width)
                cases.append(Case(name, width, text, flags, source.getrandbits(32), [source.getrandbits(8) for _ in range(64)]))
    agreed = {}
    with tempfile.TemporaryDirectory() as name:
        folder = Path(name)
        spans, lefts = built(folder, cases)
        for case, code, left in zip(cases, spans, lefts):
            path = folder / "image"
            path.write_bytes(image_of(case, code, left))
            text = subprocess.run([program, "trace", path, "--seed", str(case.seed)], capture_output=True, text=True).stdout
            key = f"{case.name} {case.width}"
            good = "end return" in text
            agreed.setdefault(key, [0, 0])[not good] += 1
            if not good:
                print(f"differs: {key}: {case.text!r} seed {case.seed} code {code.hex()} left {left.hex()}; {text.splitlines()[-3:]}")
    for key, (good, bad) in agreed.items():
        print(f"{key}: {good} agreed" + (f", {bad} differ" if bad else ""))
    print(f"{sum(good for good, _ in agreed.values())} of {len(cases)} cases agree")


if __name__ == "__main__":
    main()
