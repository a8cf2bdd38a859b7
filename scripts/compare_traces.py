"""Compares `trace` of two programs over made executables, line by line.

Usage: compare_traces.py PROGRAM PEER [COUNT] [SEED]. It needs gcc with -m32. Each of COUNT executables (300) has some
instructions in random order, among them loops of a few turns, calls of its own procedure and of externs of every kind, and stores into
a segment and the stack; each is run with other options, and again with `--at`: mostly with an address that the run comes to, else
with any address of the code.
"""

import random
import struct
import subprocess
import sys
import tempfile
from pathlib import Path

from elf_files import DYNSYM, JMP_SLOT, READ_EXECUTE, READ_WRITE, REL, STRTAB, ElfFile, Relocation, Symbol, packed
from processor_traces import FORMS, NAMES, number

CODE, DATA, TABLE = 0x08049000, 0x0804A000, 0x0804B000

EXTERNS = ["puts", "malloc", "free", "memset", "read", "rand", "exit", "custom", "strange", "write"]

OPTIONS = [[], ["--skip-sp"], ["--steps", "7"], ["--extern", "custom:pure2"], ["--extern", "custom:fills12,strange:stop"],
           ["--extern", "custom:alloc,strange:reader3,puts:pure0"], ["--steps", "3000", "--skip-sp"]]

MOVES = [name for name in FORMS if name not in ("push, pop",)]


def call(source):
    """A call of an extern, with words for arguments that it often can use."""
    name = source.randrange(len(EXTERNS))
    words = source.choice([[DATA, number(source), source.randrange(16)], [source.randrange(64), DATA + 8, 5], [DATA, source.randrange(16), 4]])
    pushes = [f"push {word}" for word in reversed(words)]
    after = source.choice(["add esp, 12", "add esp, 12\nmov [0x0804a010], eax", "pop ecx\npop edx\nlea esp, [esp + 4]", "add esp, 12\nmov edi, eax\nmov dword ptr [edi], 7"])
    return "\n".join(pushes + [f"call dword ptr [{TABLE + 4 * name:#x}]", after])


def part(source, n, k):
    kind = source.random()
    if kind < 0.62:
        form, widths = FORMS[source.choice(MOVES)]
        return form(source, source.choice(widths))[0]
    if kind < 0.72:
        return f"push {source.choice(NAMES[32])}\npop {source.choice(NAMES[32])}"
    if kind < 0.8:
        return f"mov ebx, {source.randrange(1, 5)}\nagain{n}_{k}: {source.choice(['inc eax', 'add [0x0804a004], ebx', 'mov ecx, [0x0804a004]'])}\ndec ebx\njnz again{n}_{k}"
    if kind < 0.87:
        return f"call helper{n}"
    if kind < 0.93:
        return f"test eax, {1 << source.randrange(8)}\nje skip{n}_{k}\n{source.choice(['cmp ecx, edx', 'xor edx, edx', 'cld'])}\nskip{n}_{k}: nop"
    return call(source)


def text_of(source, n):
    body = [f"begin{n}:"] + [part(source, n, k) for k in range(source.randrange(3, 25))]
    body += [source.choice(["ret", "ret", "ret", "hlt", "int3", "ret 8"]), f"helper{n}: push ebp\nmov ebp, esp\nsub esp, 8\nmov eax, [ebp + 8]\nmov [ebp - 4], eax",
             source.choice(["leave", "mov esp, ebp\npop ebp"]), "ret", f"end{n}:"]
    return "\n".join(body)


def file_of(code, data):
    names = b"\0" + b"".join(name.encode() + b"\0" for name in EXTERNS)
    starts = [1 + sum(len(name) + 1 for name in EXTERNS[:k]) for k in range(len(EXTERNS))]
    file = ElfFile(CODE)
    file.add_segment(file.add(code), CODE, len(code), READ_EXECUTE)
    file.add_segment(file.add(data), DATA, 64, READ_WRITE)
    file.add_segment(file.add(bytes(4 * len(EXTERNS))), TABLE, 4 * len(EXTERNS), READ_WRITE)
    strings = file.add_section(STRTAB, file.add(names))
    symbols = file.add_section(DYNSYM, file.add(packed([Symbol()] + [Symbol(start) for start in starts])), strings)
    file.add_section(REL, file.add(packed([Relocation(TABLE + 4 * k, k + 1, JMP_SLOT) for k in range(len(EXTERNS))])), symbols)
    return file.written(0)


def assembled(folder, texts):
    source, program = folder / "programs.s", folder / "programs"
    source.write_text(".intel_syntax noprefix\n.text\n" + "\n".join(texts) + "\n")
    subprocess.run(["gcc", "-m32", "-c", "-o", program, source], check=True)
    table = subprocess.run(["nm", program], check=True, capture_output=True, text=True).stdout
    places = {name: int(value, 16) for value, _, name in (line.split() for line in table.splitlines())}
    subprocess.run(["objcopy", "-O", "binary", "-j", ".text", program, folder / "code"], check=True)
    code = (folder / "code").read_bytes()
    return [code[places[f"begin{n}"]:places[f"end{n}"]] for n in range(len(texts))]


def answer(program, path, options):
    done = subprocess.run([program, "trace", path] + options, capture_output=True)
    return done.returncode, done.stdout, done.stderr


def criterion(source, trace, code):
    """An address for `--at`: one of the steps of a trace, or at times any one of the code."""
    steps = [line.split()[1].decode() for line in trace.splitlines()[1:-1]]
    if steps and source.random() < 0.9:
        return f"0x{source.choice(steps)}"
    return f"{CODE + source.randrange(len(code)):#x}"


def first_difference(mine, other):
    for one, two in zip(mine.splitlines(), other.splitlines()):
        if one != two:
            return f"  {one.decode()} | {two.decode()}"
    return "  one ends before the other"


def compare(program, peer, path, options, kept):
    """Whether two programs answer alike, and what the first answers; where they don't, the file is kept."""
    mine, other = answer(program, path, options), answer(peer, path, options)
    if mine != other:
        kept.write_bytes(path.read_bytes())
        print(f"differs: {kept} {' '.join(options)}: {mine[0]} {other[0]}\n{first_difference(mine[1], other[1])}")
    return mine == other, mine


def main():
    program, peer = sys.argv[1:3]
    count = int(sys.argv[3]) if len(sys.argv) > 3 else 300
    source = random.Random(int(sys.argv[4]) if len(sys.argv) > 4 else 1)
    texts = [text_of(source, n) for n in range(count)]
    same, alike, absent, endings = 0, 0, 0, {}
    with tempfile.TemporaryDirectory() as name:
        folder = Path(name)
        for n, code in enumerate(assembled(folder, texts)):
            path = folder / "image"
            path.write_bytes(file_of(code, bytes(source.getrandbits(8) for _ in range(64))))
            options = ["--seed", str(source.getrandbits(32))] + source.choice(OPTIONS)
            agrees, mine = compare(program, peer, path, options, Path(f"/tmp/trace-{n}.elf"))
            same += agrees
            at = ["--at", criterion(source, mine[1], code)]
            agrees, sliced = compare(program, peer, path, options + at, Path(f"/tmp/trace-at-{n}.elf"))
            alike += agrees
            absent += sliced[0] == 5
            last = mine[1].splitlines()[-1:]
            ending = last[0].split()[1].decode() if last else str(mine[0])
            endings[ending] = endings.get(ending, 0) + 1
    print(f"{same} of {count} traces agree; endings: " + ", ".join(f"{ending} {times}" for ending, times in sorted(endings.items())))
    print(f"{alike} of {count} traces with --at agree; in {absent} the run never comes to the address")
    sys.exit(same != count or alike != count)


if __name__ == "__main__":
    main()
