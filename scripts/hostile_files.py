#!/usr/bin/env python3
"""Times `surf list` on ELF32 files that are made to cost a reader of the format as much as they can.

The files have 1, 4 and 16 MiB, the most that surf reads; each is made from a fixed seed in a temporary folder, and is
deleted once it is read. Where a kind is bounded by a count and not by the file's size, the count grows with the size up
to its limit. Run it as `scripts/hostile_files.py [--surf PATH] [--only WORD] [--sizes 16]`; it prints a table, and ends
with status 1 where a run took longer than the limit or ended by a signal.
"""

import argparse
import os
import random
import subprocess
import sys
import tempfile
import time
from dataclasses import dataclass

import elf_files
from elf_files import Part, Relocation, Symbol, packed
from list_comparison import MOST_STEPS, SURF

MIB = 1 << 20

LARGEST = 16 * MIB

MOST_RELOCATIONS = 65536

MOST_EXTERNS = 1024

MOST_MEMORY = 64 * MIB

CODE = 0x08048000

DATA = 0x10000000

# The greatest size of a symbol, which reaches behind any segment.
WHOLE_SEGMENT = 0xFFFFFFFF

SHORT_CODE = b"\x90" * 15 + b"\xc3"


def plain_file(code=SHORT_CODE):
    """A file with some code."""
    elf = elf_files.ElfFile(CODE)
    elf.add_segment(elf.add(code), CODE, len(code), elf_files.READ_EXECUTE)
    return elf


def scaled(most, size):
    """A count that reaches its limit in the largest file."""
    return max(1, most * size // LARGEST)


# Relocations


def with_relocations(elf, relocations, symbols):
    """Adds relocations, and memory without bytes in the file for the words that they write."""
    last = max(relocation.place for relocation in relocations)
    elf.add_segment(elf_files.NOWHERE, DATA, last + 4 - DATA, elf_files.READ_WRITE)
    strings = elf.add_section(elf_files.STRTAB, elf.add(b"\0variable\0"))
    table = elf.add_section(elf_files.DYNSYM, elf.add(packed(symbols)), strings)
    elf.add_section(elf_files.REL, elf.add(packed(relocations)), table)
    return elf


def word(number):
    """The address of a word with a word between it and the next."""
    return DATA + 8 * number


# A symbol of four bytes, one that reaches to its segment's end, and one that is no part of the file.
VARIABLES = [Symbol(1, DATA, 4, 1), Symbol(1, DATA, WHOLE_SEGMENT, 1), Symbol(1)]

SMALL, LARGE, ABSENT = 0, 1, 2


def relocated(size, places, symbol_and_kind, code=SHORT_CODE):
    """A file with a relocation for each of the places."""
    relocations = [Relocation(place, *symbol_and_kind(i)) for i, place in enumerate(places)]
    return with_relocations(plain_file(code), relocations, VARIABLES).written(size)


def every(symbol, kind):
    return lambda i: (symbol, kind)


def rising(size):
    return [word(i) for i in range(scaled(MOST_RELOCATIONS, size))]


def one_word(kind):
    return lambda size, chance: relocated(size, [DATA] * scaled(MOST_RELOCATIONS, size), every(SMALL, kind))


def copies_rising(size, chance):
    return relocated(size, rising(size), every(SMALL, elf_files.COPY))


def copies_falling(size, chance):
    return relocated(size, rising(size)[::-1], every(SMALL, elf_files.COPY))


def copies_shuffled(size, chance):
    places = rising(size)
    chance.shuffle(places)
    return relocated(size, places, every(SMALL, elf_files.COPY))


def large_copies(size, chance):
    return relocated(size, rising(size)[::-1], every(LARGE, elf_files.COPY))


def copies_and_stores(size, chance):
    """Each word is copied to, and stored at once."""
    places = [word(i // 2) for i in range(scaled(MOST_RELOCATIONS, size))]
    return relocated(size, places, lambda i: (SMALL, [elf_files.COPY, elf_files.GLOB_DAT][i % 2]))


def stores_in_copy(size, chance):
    """All is copied to by the first relocation, and each second word is stored after that."""
    places = [DATA] + rising(size)[1:]
    return relocated(size, places, lambda i: (LARGE, elf_files.COPY) if i == 0 else (SMALL, elf_files.GLOB_DAT))


def copies_then(kind, is_copied):
    """Half of the relocations copy to words; the other half are of another kind, on words that were copied to, or on
    the words between them."""
    def made(size, chance):
        half = scaled(MOST_RELOCATIONS, size) // 2
        copied = [word(i) for i in range(half)]
        later = copied[::-1] if is_copied else [place + 4 for place in copied[::-1]]
        return relocated(size, copied + later, lambda i: (SMALL, elf_files.COPY if i < half else kind))
    return made


def copies_and_code(size, chance):
    """Words are copied to, and there is more code than is listed."""
    return relocated(size, rising(size), every(SMALL, elf_files.COPY), b"\x90" * MOST_STEPS)


def copies_symbols_and_code(size, chance):
    """Words are copied to in no order, tables of symbols fill the file, and there is more code than is listed."""
    places = rising(size)
    chance.shuffle(places)
    relocations = [Relocation(place, SMALL, elf_files.COPY) for place in places]
    elf = with_relocations(plain_file(b"\x90" * MOST_STEPS), relocations, VARIABLES)
    table = elf.add(VARIABLES[SMALL].packed() * (elf.room(size) // 16))
    add_sections(elf, elf_files.MOST_SECTIONS - len(elf.sections), elf_files.SYMTAB, table, 1)
    return elf.written(size)


def externs(count):
    """Symbols that the file doesn't have, used in turn, the last of them by each relocation after that."""
    def made(size, chance):
        total = scaled(MOST_RELOCATIONS, size)
        relocations = [Relocation(word(i), min(i + 1, count), elf_files.JMP_SLOT) for i in range(total)]
        return with_relocations(plain_file(), relocations, [Symbol(1)] * (count + 1)).written(size)
    return made


def relocations_in_last_segment(size, chance):
    """The words are in the last of 64 segments."""
    elf = plain_file()
    for i in range(elf_files.MOST_SEGMENTS - 2):
        elf.add_segment(elf_files.NOWHERE, DATA - MIB + 16 * i, 16, elf_files.READ_WRITE)
    relocations = [Relocation(place, SMALL, elf_files.RELATIVE) for place in rising(size)]
    return with_relocations(elf, relocations, VARIABLES).written(size)


# Sections


def add_sections(elf, count, kind, part, link):
    for _ in range(count):
        elf.add_section(kind, part, link)


def sections_of_relocations(each):
    """As many sections as there may be, all of them over the same relocations."""
    def made(size, chance):
        elf = plain_file()
        elf.add_segment(elf_files.NOWHERE, DATA, 4, elf_files.READ_WRITE)
        strings = elf.add_section(elf_files.STRTAB, elf.add(b"\0variable\0"))
        table = elf.add_section(elf_files.DYNSYM, elf.add(packed(VARIABLES)), strings)
        count = min(each, elf.room(size) // 8)
        relocations = elf.add(Relocation(DATA, SMALL, elf_files.NONE).packed() * count)
        add_sections(elf, elf_files.MOST_SECTIONS - len(elf.sections), elf_files.REL, relocations, table)
        return elf.written(size)
    return made


def symbol_tables(kind, symbol):
    """As many tables of symbols as there may be, all of them over the same symbols, which fill the file."""
    def made(size, chance):
        elf = plain_file()
        strings = elf.add_section(elf_files.STRTAB, elf.add(b"\0variable\0"))
        table = elf.add(symbol.packed() * (elf.room(size) // 16))
        add_sections(elf, elf_files.MOST_SECTIONS - len(elf.sections), kind, table, strings)
        return elf.written(size)
    return made


def tables_without_strings(size, chance):
    """The same, where the tables have no table of strings."""
    elf = plain_file()
    table = elf.add(Symbol(1, 0, 0, 1).packed() * (elf.room(size) // 16))
    add_sections(elf, elf_files.MOST_SECTIONS - len(elf.sections), elf_files.SYMTAB, table, 0)
    return elf.written(size)


def symbols_with_names(text, names):
    """One table of symbols with a text behind it, of which each symbol has a part as its name."""
    def made(size, chance):
        elf = plain_file()
        count = elf.room(size) // 32
        strings = elf.add_section(elf_files.STRTAB, elf.add(text(16 * count)))
        symbols = b"".join(Symbol(names(i), i, 0, 1).packed() for i in range(count))
        elf.add_section(elf_files.SYMTAB, elf.add(symbols), strings)
        return elf.written(size)
    return made


def long_text(size):
    """A text that ends with the part."""
    return b"a" * (size - 1) + b"\0"


def endless_text(size):
    return b"a" * size


def many_names(size, chance):
    """Symbols that are text too, read again and again, each time with a text that begins one byte later: nearly each
    byte of the file begins a name."""
    elf = plain_file()
    symbols = b"".join(Symbol(16 * i, 0x01010101, 0x01010101, 0x0101).packed() for i in range(elf.room(size) // 16))
    table = elf.add(symbols)
    for i in range(16):
        strings = elf.add_section(elf_files.STRTAB, Part(table.offset + i, table.size - i))
        elf.add_section(elf_files.SYMTAB, table, strings)
    add_sections(elf, elf_files.MOST_SECTIONS - len(elf.sections), elf_files.SYMTAB, table, 1)
    return elf.written(size)


def text_tables(size, chance):
    """As many tables of strings as there may be, all of them over the whole file."""
    elf = plain_file()
    whole = elf.add(b"a" * elf.room(size))
    add_sections(elf, elf_files.MOST_SECTIONS - len(elf.sections), elf_files.STRTAB, whole, 0)
    return elf.written(size)


def tables_without_nul(size, chance):
    """As many tables of symbols as there may be, each with a table of strings of its own that has no NUL."""
    elf = plain_file()
    table = elf.add(Symbol(1, 0, 0, 1).packed() * (elf.room(size) // 32))
    text = elf.add(b"a" * elf.room(size))
    for i in range((elf_files.MOST_SECTIONS - len(elf.sections)) // 2):
        strings = elf.add_section(elf_files.STRTAB, Part(text.offset, text.size - i))
        elf.add_section(elf_files.SYMTAB, table, strings)
    return elf.written(size)


# Segments


def segments(gap, part_size):
    """As many segments as there may be, with as much memory as there may be, all of them of the same bytes. `gap` is
    how far they stand apart."""
    def made(size, chance):
        elf = elf_files.ElfFile(CODE)
        memory = MOST_MEMORY // elf_files.MOST_SEGMENTS
        code = elf.add(b"\x90" * min(part_size, elf.room(size)))
        for i in range(elf_files.MOST_SEGMENTS):
            elf.add_segment(code, CODE + i * (memory + gap), memory, elf_files.READ_EXECUTE)
        return elf.written(size)
    return made


def small_segments(size, chance):
    """Code that goes on from one small segment to the next, the last of them first."""
    elf = elf_files.ElfFile(CODE)
    code = elf.add(b"\x90" * 1024)
    for i in reversed(range(elf_files.MOST_SEGMENTS)):
        elf.add_segment(code, CODE + 1024 * i, 1024, elf_files.READ_EXECUTE)
    return elf.written(size)


def long_code(size, chance):
    """Instructions of 15 bytes, more than are listed, in the last segment."""
    elf = elf_files.ElfFile(CODE)
    code = (b"\x66" * 14 + b"\x90") * MOST_STEPS
    for i in range(elf_files.MOST_SEGMENTS - 1):
        elf.add_segment(elf_files.NOWHERE, DATA + 16 * i, 16, elf_files.READ_WRITE)
    part = elf.add(code[: elf.room(size)])
    elf.add_segment(part, CODE, part.size, elf_files.READ_EXECUTE)
    return elf.written(size)


# Random files


def random_tail(size, chance):
    """Random bytes after a good file header."""
    return plain_file().written(size)[: elf_files.PROGRAM_HEADERS] + chance.randbytes(size - elf_files.PROGRAM_HEADERS)


def random_content(size, chance):
    """Random bytes in all of the file behind good tables: as symbols, texts, relocations and code."""
    elf = plain_file()
    content = elf.add(chance.randbytes(elf.room(size)))
    elf.add_segment(content, DATA, content.size, elf_files.READ_WRITE)
    elf.add_section(elf_files.STRTAB, content)
    elf.add_section(elf_files.DYNSYM, content, 1)
    elf.add_section(elf_files.REL, content, 2)
    add_sections(elf, elf_files.MOST_SECTIONS - len(elf.sections), elf_files.SYMTAB, content, 1)
    return elf.written(size)


def random_symbols(size, chance):
    """Tables of random bytes, each of them begun one byte later, with texts of random bytes."""
    elf = plain_file()
    content = elf.add(bytes(byte & 0x7F for byte in chance.randbytes(elf.room(size))))
    strings = elf.add_section(elf_files.STRTAB, content)
    for i in range(elf_files.MOST_SECTIONS - len(elf.sections)):
        elf.add_section(elf_files.SYMTAB, Part(content.offset + i, content.size - i), strings)
    return elf.written(size)


KINDS = {
    "kind 1, all on one word": one_word(elf_files.ADD_SYMBOL),
    "kind 6, all on one word": one_word(elf_files.GLOB_DAT),
    "kind 8, all on one word": one_word(elf_files.RELATIVE),
    "kind 5, all on one word": one_word(elf_files.COPY),
    "copies, rising": copies_rising,
    "copies, falling": copies_falling,
    "copies, shuffled": copies_shuffled,
    "copies of the greatest size, falling": large_copies,
    "a copy and a store on each word": copies_and_stores,
    "stores on each second word of a copy": stores_in_copy,
    "copies, then kind 1 on them": copies_then(elf_files.ADD_SYMBOL, True),
    "copies, then kind 8 on them": copies_then(elf_files.RELATIVE, True),
    "copies, then kind 1 between them": copies_then(elf_files.ADD_SYMBOL, False),
    "copies, then kind 6 between them": copies_then(elf_files.GLOB_DAT, False),
    "copies, then much code": copies_and_code,
    "copies, symbol tables and much code": copies_symbols_and_code,
    "1024 externs": externs(MOST_EXTERNS),
    "1025 externs": externs(MOST_EXTERNS + 1),
    "relocations in the last segment": relocations_in_last_segment,
    "1021 sections over 64 relocations": sections_of_relocations(64),
    "1021 sections over all relocations": sections_of_relocations(LARGEST),
    "1022 symbol tables, one name": symbol_tables(elf_files.SYMTAB, Symbol(1, 0, 0, 1)),
    "1022 symbol tables, no name": symbol_tables(elf_files.SYMTAB, Symbol(0, 0, 0, 1)),
    "1022 symbol tables, undefined": symbol_tables(elf_files.SYMTAB, Symbol(1, 0, 0, 0)),
    "1022 dynamic symbol tables, one name": symbol_tables(elf_files.DYNSYM, Symbol(1, 0, 0, 1)),
    "1023 symbol tables without strings": tables_without_strings,
    "symbols, all of one name": symbols_with_names(long_text, lambda i: 0),
    "symbols, each a tail of one text": symbols_with_names(long_text, lambda i: 15 * i),
    "symbols, a text without NUL": symbols_with_names(endless_text, lambda i: 15 * i),
    "a name at each byte of a text": many_names,
    "1023 string tables": text_tables,
    "511 symbol tables, texts without NUL": tables_without_nul,
    "64 segments of 1 MiB of the file": segments(4096, MIB),
    "64 segments of 1 MiB of zeros": segments(4096, 1),
    "64 segments of 1 MiB that adjoin": segments(0, MIB),
    "64 small segments that adjoin": small_segments,
    "code of 15 bytes each, last segment": long_code,
    "random bytes after a good header": random_tail,
    "random bytes behind good tables": random_content,
    "1022 tables of random symbols": random_symbols,
}


@dataclass(frozen=True)
class Cost:
    """Seconds by the clock and of the processor, and the most memory that was seen, in MiB."""

    seconds: float
    processor: float
    memory: int


@dataclass(frozen=True)
class Outcome:
    cost: Cost
    answer: str
    is_good: bool


def answer(out, err):
    """What a run wrote first, and with which count its listing ends."""
    for stream in (err, out):
        stream.seek(0)
        lines = stream.read().decode(errors="replace").splitlines()
        if lines:
            return " .. ".join([lines[0]] + lines[1:][-1:])
    return "nothing"


def most_memory(process):
    """The most memory that a process has held so far, in MiB, or 0 where it has ended."""
    try:
        with open(f"/proc/{process.pid}/status") as status:
            lines = [line for line in status if line.startswith("VmHWM:")]
    except OSError:
        return 0
    return int(lines[0].split()[1]) // 1024 if lines else 0


def watched(process, limit):
    """Waits for a process, and ends it after `limit` seconds."""
    begun = time.monotonic()
    memory = 0
    ended, status, usage = os.wait4(process.pid, os.WNOHANG)
    while not ended:
        memory = max(memory, most_memory(process))
        if time.monotonic() - begun > limit:
            process.kill()
        time.sleep(0.005)
        ended, status, usage = os.wait4(process.pid, os.WNOHANG)
    process.returncode = os.waitstatus_to_exitcode(status)
    return Cost(time.monotonic() - begun, usage.ru_utime + usage.ru_stime, memory)


def listed(surf, path, limit):
    """Runs `surf list` for at most `limit` seconds."""
    with tempfile.TemporaryFile() as out, tempfile.TemporaryFile() as err:
        process = subprocess.Popen([surf, "list", path, "--steps", str(MOST_STEPS)], stdout=out, stderr=err)
        cost = watched(process, limit)
        if process.returncode < 0:
            return Outcome(cost, f"ended by signal {-process.returncode}", False)
        return Outcome(cost, answer(out, err), True)


def arguments():
    parser = argparse.ArgumentParser(description=__doc__, formatter_class=argparse.RawDescriptionHelpFormatter)
    parser.add_argument("--surf", default=SURF, metavar="PATH", help="the program (default: surf of this repository)")
    parser.add_argument("--only", default="", metavar="WORD", help="only the kinds with this word in their name")
    parser.add_argument("--sizes", default="1,4,16", metavar="MIB", help="the sizes in MiB (default: 1,4,16)")
    parser.add_argument("--limit", type=float, default=300, metavar="SECONDS", help="the most for a run (default: 300)")
    parser.add_argument("--keep", metavar="FOLDER", help="write the files into this folder and leave them there")
    return parser.parse_args()


def file_name(kind, size):
    return "-".join(kind.replace(",", "").split()) + f"-{size // MIB}"


def time_kind(asked, folder, kind, size):
    """Makes a file of a kind, times it, and prints its row of the table."""
    content = KINDS[kind](size, random.Random(f"{kind} {size}"))
    path = os.path.join(folder, file_name(kind, size))
    with open(path, "wb") as file:
        file.write(content)
    outcome = listed(asked.surf, path, asked.limit)
    cost = f"{outcome.cost.seconds:8.2f} {outcome.cost.processor:9.2f} {outcome.cost.memory:6}"
    print(f"{kind:40} {len(content):9} {cost}  {outcome.answer}", flush=True)
    if asked.keep is None:
        os.remove(path)
    return outcome.is_good


def main():
    asked = arguments()
    sizes = [int(size) * MIB for size in asked.sizes.split(",")]
    print(f"{'kind':40} {'bytes':>9} {'seconds':>8} {'processor':>9} {'MiB':>6}  first line, and the end of a listing")
    with tempfile.TemporaryDirectory() as temporary:
        folder = asked.keep or temporary
        rows = [time_kind(asked, folder, kind, size) for kind in KINDS if asked.only in kind for size in sizes]
    return 0 if all(rows) else 1


if __name__ == "__main__":
    sys.exit(main())
