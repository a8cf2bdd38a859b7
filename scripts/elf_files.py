"""Writes ELF32 files part by part: the tables in front, and all else behind them.

Imported by the scripts that need files of their own form. The fields are those of the System V ABI, "Object Files".
"""

import struct
from dataclasses import dataclass

MOST_SEGMENTS = 64

MOST_SECTIONS = 1024

# Where the program headers and the section headers stand, and where what they speak of begins.
PROGRAM_HEADERS = 52

SECTION_HEADERS = PROGRAM_HEADERS + 32 * MOST_SEGMENTS

CONTENT = SECTION_HEADERS + 40 * MOST_SECTIONS

# Types of files, of sections, and flags of segments.
EXEC = 2

SYMTAB = 2

STRTAB = 3

REL = 9

DYNSYM = 11

READ_EXECUTE = 5

READ_WRITE = 6

# Kinds of relocations (R_386_).
NONE, ADD_SYMBOL, COPY, GLOB_DAT, JMP_SLOT, RELATIVE = 0, 1, 5, 6, 7, 8


@dataclass(frozen=True)
class Part:
    """Some of the file's bytes."""

    offset: int
    size: int


NOWHERE = Part(0, 0)


@dataclass(frozen=True)
class Symbol:
    name: int = 0
    value: int = 0
    size: int = 0
    section: int = 0

    def packed(self):
        return struct.pack("<IIIBBH", self.name, self.value, self.size, 0x12, 0, self.section)


@dataclass(frozen=True)
class Relocation:
    place: int
    symbol: int
    kind: int

    def packed(self):
        return struct.pack("<II", self.place, self.symbol << 8 | self.kind)


def packed(records):
    return b"".join(record.packed() for record in records)


class ElfFile:
    """A file in the making."""

    def __init__(self, entry):
        self.entry = entry
        self.segments = []
        self.sections = [(0, NOWHERE, 0)]
        self.content = bytearray()

    def add(self, content):
        """Adds bytes behind all others."""
        part = Part(CONTENT + len(self.content), len(content))
        self.content += content
        return part

    def add_segment(self, part, address, memory_size, flags):
        self.segments.append((part, address, memory_size, flags))

    def add_section(self, kind, part, link=0):
        """Adds a section header, and gives its index."""
        self.sections.append((kind, part, link))
        return len(self.sections) - 1

    def room(self, size):
        """How many bytes may still be added to a file of this size."""
        return size - CONTENT - len(self.content)

    def header(self):
        identification = b"\x7fELF" + bytes([1, 1, 1]) + bytes(9)
        fields = struct.pack("<HHIIIIIHHHHHH", EXEC, 3, 1, self.entry, PROGRAM_HEADERS, SECTION_HEADERS, 0, 52, 32,
                             len(self.segments), 40, len(self.sections), 0)
        return identification + fields

    def written(self, size):
        """The file, with zeros at its end up to this size."""
        programs = b"".join(struct.pack("<IIIIIIII", 1, part.offset, address, address, part.size, memory_size, flags, 1)
                            for part, address, memory_size, flags in self.segments)
        sections = b"".join(struct.pack("<IIIIIIIIII", 0, kind, 0, 0, part.offset, part.size, link, 0, 1, 0)
                            for kind, part, link in self.sections)
        front = self.header() + programs.ljust(32 * MOST_SEGMENTS, b"\0") + sections.ljust(40 * MOST_SECTIONS, b"\0")
        return (front + bytes(self.content)).ljust(size, b"\0")
