"""Makes small executables at random, for scripts that compare answers on them.

A program is a procedure at the entry, a helper with a frame, a procedure that calls itself, and tables of jumps; its parts move
numbers, store into a segment, into the frame and into blocks of the heap, loop, branch, call, and repeat string instructions. It
needs gcc with -m32, nm and objcopy.
"""

import random
import struct
import subprocess
from dataclasses import dataclass, field

from elf_files import DYNSYM, JMP_SLOT, READ_EXECUTE, READ_WRITE, REL, STRTAB, ElfFile, Relocation, Symbol, packed

CODE, DATA, LINKS, TABLES = 0x08049000, 0x0804A000, 0x0804B000, 0x0804C000

READ = 4

EXTERNS = ["puts", "malloc", "free", "memset", "read", "rand", "exit", "custom"]

REGISTERS = ["eax", "ebx", "ecx", "edx", "esi", "edi"]

BYTES = ["al", "bl", "cl", "dl", "ah", "ch"]

CONDITIONS = ["e", "ne", "l", "le", "g", "ge", "b", "be", "a", "ae", "s", "ns"]


@dataclass
class Program:
    """The text of a program, and the labels that its tables hold, a list a table."""

    number: int
    lines: list = field(default_factory=list)
    tables: list = field(default_factory=list)
    labels: int = 0

    def label(self, word):
        self.labels += 1
        return f"{word}{self.number}_{self.labels}"

    def table(self, labels):
        """The address of a new table of these labels."""
        at = TABLES + 4 * sum(len(table) for table in self.tables)
        self.tables.append(labels)
        return at


def moved(source, _):
    one, two = source.choice(REGISTERS), source.choice(REGISTERS)
    return source.choice([
        f"mov {one}, {source.randrange(-3, 70)}", f"mov {one}, {two}", f"lea {one}, [{two} + {source.randrange(4)}]",
        f"xor {one}, {one}", f"{source.choice(['add', 'sub', 'and', 'or', 'xor'])} {one}, {source.choice([two, str(source.randrange(16))])}",
        f"mov {source.choice(BYTES)}, {source.randrange(200)}", f"movzx {one}, {source.choice(BYTES)}", f"imul {one}, {two}, 3",
        f"shl {one}, {source.randrange(5)}", f"neg {one}", f"inc {one}", f"sar {one}, 2", f"cmp {one}, {two}\nset{source.choice(CONDITIONS)} al"])


def stored(source, _):
    register, place = source.choice(REGISTERS), DATA + 4 * source.randrange(16)
    return source.choice([
        f"mov [{place:#x}], {register}", f"mov {register}, [{place:#x}]", f"mov byte ptr [{place:#x}], {source.randrange(99)}",
        f"movzx {register}, word ptr [{place:#x}]", f"add dword ptr [{place:#x}], {register}", f"mov dword ptr [{place:#x}], {DATA + 8}",
        f"mov esi, [{place:#x}]\nmov [esi], {register}"])


def in_frame(source, _):
    register, place = source.choice(REGISTERS), 4 * source.randrange(1, 7)
    return source.choice([
        f"mov [ebp - {place}], {register}", f"mov {register}, [ebp - {place}]", f"lea {register}, [ebp - {place}]",
        f"lea edi, [ebp - {place}]\nmov [edi], eax", f"push {register}\npop {source.choice(REGISTERS)}", f"mov byte ptr [ebp - {place}], 1",
        f"and ecx, 3\nmov [ebp + ecx*4 - 24], eax", f"inc dword ptr [ebp - {place}]"])


def looped(source, program):
    again, place = program.label("again"), 4 * source.randrange(1, 7)
    body = source.choice(["inc eax", "add [0x0804a004], ebx", "mov [ebp + ebx*4 - 24], eax", "xor edx, ebx"])
    return source.choice([
        f"mov ebx, {source.randrange(1, 6)}\n{again}: {body}\ndec ebx\njnz {again}",
        f"xor ebx, ebx\n{again}: {body}\ninc ebx\ncmp ebx, {source.randrange(1, 6)}\nj{source.choice(['l', 'b', 'le', 'ne'])} {again}",
        f"mov dword ptr [ebp - {place}], 0\n{again}: inc dword ptr [ebp - {place}]\ncmp dword ptr [ebp - {place}], 3\njle {again}"])


def branched(source, program):
    skip = program.label("skip")
    test = source.choice([f"test {source.choice(REGISTERS)}, {1 << source.randrange(5)}", f"cmp {source.choice(REGISTERS)}, {source.randrange(9)}"])
    return f"{test}\nj{source.choice(CONDITIONS)} {skip}\n{source.choice([moved, stored, in_frame])(source, program)}\n{skip}:"


def called(source, program):
    argument = source.choice(["5", "eax", f"{DATA}", "ecx"])
    callee = source.choice([f"helper{program.number}", f"recursive{program.number}"])
    return f"push {argument}\ncall {callee}\nadd esp, 4"


def called_outside(source, _):
    link = lambda name: f"call dword ptr [{LINKS + 4 * EXTERNS.index(name):#x}]"
    return source.choice([
        f"push {source.choice(['8', '16', 'ecx'])}\n{link('malloc')}\nadd esp, 4\nmov dword ptr [eax + {4 * source.randrange(3)}], {source.choice(['7', 'edx', 'eax'])}\nmov edx, [eax]",
        f"push {source.randrange(9)}\npush 0\npush {DATA}\n{link('memset')}\nadd esp, 12", f"push {DATA}\n{link('puts')}\npop ecx", link("rand"),
        f"push 4\n{link('malloc')}\npop ecx\nmov [0x0804a008], eax\nmov dword ptr [eax], 3", f"push 2\n{link('custom')}\nadd esp, 4"])


def repeated(source, _):
    return source.choice([
        f"lea edi, [ebp - 24]\nmov ecx, {source.randrange(7)}\nrep stosd", f"mov edi, {DATA}\nmov ecx, {source.randrange(5)}\nrep stosb",
        f"mov esi, {DATA}\nlea edi, [ebp - 24]\nmov ecx, 3\nrep movsd", f"mov esi, {DATA}\nmov edi, {DATA + 32}\nmovsd"])


def jumped(source, program):
    """A jump through a table, or a call of a procedure by its address in a table."""
    count, behind = source.randrange(2, 5), program.label("behind")
    cases = [program.label("case") for _ in range(count)]
    at = program.table(cases)
    places = "\n".join(f"{case}: {source.choice([moved, stored])(source, program)}\njmp {behind}" for case in cases)
    return f"cmp eax, {count - 1}\nja {behind}\njmp dword ptr [eax*4 + {at:#x}]\n{places}\n{behind}:"


PARTS = [(moved, 30), (stored, 14), (in_frame, 20), (looped, 8), (branched, 10), (called, 8), (called_outside, 6), (repeated, 3), (jumped, 3)]


def parts(source, program, count):
    kinds, weights = zip(*PARTS)
    return "\n".join(kind(source, program) for kind in source.choices(kinds, weights, k=count))


def recursive_text(source, program):
    """A procedure that calls itself; in some programs it keeps a number in its frame meanwhile."""
    n = program.number
    if source.random() < 0.5:
        return f"""recursive{n}: push ebp
mov ebp, esp
sub esp, 8
mov eax, [ebp + 8]
mov [ebp - 4], eax
cmp eax, 1
jle done{n}
dec eax
push eax
call recursive{n}
add esp, 4
mov ecx, [ebp - 4]
add eax, ecx
mov [0x0804a00c], eax
done{n}: leave
ret"""
    return f"""recursive{n}: mov eax, [esp + 4]
cmp eax, 1
jle done{n}
dec eax
push eax
call recursive{n}
{source.choice(['add esp, 4', 'pop ecx'])}
{moved(source, program)}
done{n}: ret"""


def text_of(source, program):
    n, most = program.number, source.choice([6, 12, 25])
    frame = "push ebp\nmov ebp, esp\nsub esp, 24"
    leave = source.choice(["leave", "mov esp, ebp\npop ebp"])
    return f"""begin{n}: {frame}
{parts(source, program, source.randrange(2, most))}
{leave}
{source.choice(['ret', 'ret', 'ret', 'hlt'])}
helper{n}: {frame}
mov eax, [ebp + 8]
{parts(source, program, source.randrange(1, most // 2))}
leave
{source.choice(['ret', 'ret', 'ret', 'ret 4'])}
{recursive_text(source, program)}
end{n}:"""


def assembled(folder, programs, texts):
    """The code and the tables of each program."""
    source, made = folder / "programs.s", folder / "programs"
    source.write_text(".intel_syntax noprefix\n.text\n" + "\n".join(texts) + "\n")
    subprocess.run(["gcc", "-m32", "-c", "-o", made, source], check=True)
    table = subprocess.run(["nm", made], check=True, capture_output=True, text=True).stdout
    places = {name: int(value, 16) for value, _, name in (line.split() for line in table.splitlines())}
    subprocess.run(["objcopy", "-O", "binary", "-j", ".text", made, folder / "code"], check=True)
    code = (folder / "code").read_bytes()
    for program in programs:
        begin, end = places[f"begin{program.number}"], places[f"end{program.number}"]
        words = [CODE + places[label] - begin for table in program.tables for label in table]
        yield code[begin:end], struct.pack(f"<{len(words)}I", *words)


def file_of(code, data, tables):
    names = b"\0" + b"".join(name.encode() + b"\0" for name in EXTERNS)
    starts = [1 + sum(len(name) + 1 for name in EXTERNS[:k]) for k in range(len(EXTERNS))]
    file = ElfFile(CODE)
    file.add_segment(file.add(code), CODE, len(code), READ_EXECUTE)
    file.add_segment(file.add(data), DATA, len(data), READ_WRITE)
    file.add_segment(file.add(bytes(4 * len(EXTERNS))), LINKS, 4 * len(EXTERNS), READ_WRITE)
    if tables:
        file.add_segment(file.add(tables), TABLES, len(tables), READ)
    strings = file.add_section(STRTAB, file.add(names))
    symbols = file.add_section(DYNSYM, file.add(packed([Symbol()] + [Symbol(start) for start in starts])), strings)
    file.add_section(REL, file.add(packed([Relocation(LINKS + 4 * k, k + 1, JMP_SLOT) for k in range(len(EXTERNS))])), symbols)
    return file.written(0)


def made_files(source, folder, count):
    """Pairs of a program's code and its file's bytes."""
    programs = [Program(n) for n in range(count)]
    texts = [text_of(source, program) for program in programs]
    for code, tables in assembled(folder, programs, texts):
        yield code, file_of(code, bytes(source.getrandbits(8) for _ in range(64)), tables)


def seeded(words, at):
    """A source of random numbers by the word at this place, 1 where there is none."""
    return random.Random(int(words[at]) if len(words) > at else 1)
