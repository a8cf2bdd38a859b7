"""A small model of what a file's image is, to compare the program with: the checks in order, and what is loaded.

Imported by the scripts that compare images. It is written from the rules in docs/IMAGES.md, one after the other, and knows
nothing of the program. Fields are those of the System V ABI, "Object Files", by their offsets.
"""

import struct
from dataclasses import dataclass, field

BIAS = 0x400000

LOWEST, END = 0x1000, 0x7FFFFFFF

EXTERNS = 0xF0000000

MOST_MEMORY = 64 * 1024 * 1024

PT_LOAD = 1

SYMTAB, STRTAB, REL, DYNSYM = 2, 3, 9, 11

EXECUTE, WRITE = 1, 2

NONE, ADD_SYMBOL, COPY, GLOB_DAT, JMP_SLOT, RELATIVE = 0, 1, 5, 6, 7, 8

KINDS = {NONE, ADD_SYMBOL, COPY, GLOB_DAT, JMP_SLOT, RELATIVE}


class Refused(Exception):
    """The first check that fails, as the program names it."""


@dataclass
class Segment:
    index: int
    start: int
    offset: int
    file_size: int
    size: int
    flags: int

    @property
    def end(self):
        return self.start + self.size


@dataclass
class Section:
    kind: int
    offset: int
    size: int
    link: int


@dataclass
class Image:
    entry: int
    bias: int
    segments: list
    # The byte at each address of a segment, or None where any may stand.
    memory: dict = field(default_factory=dict)
    externs: list = field(default_factory=list)

    def code_byte(self, address):
        held = any(s.start <= address < s.end and s.flags & EXECUTE for s in self.segments)
        return self.memory[address] if held else None


def half(file, at):
    return struct.unpack_from("<H", file, at)[0]


def word(file, at):
    return struct.unpack_from("<I", file, at)[0]


def check_header(file):
    if len(file) < 52:
        raise Refused(f"Short {len(file)}")
    if file[:4] != b"\x7fELF":
        raise Refused("Magic")
    if file[4] != 1 or file[5] != 1:
        raise Refused("Class")
    if half(file, 18) != 3:
        raise Refused("Machine")
    if half(file, 16) not in (2, 3):
        raise Refused("Kind")


def has_sections(file):
    return word(file, 32) != 0 and half(file, 48) != 0


def check_tables(file):
    programs, program_size, section_size, sections = half(file, 44), half(file, 42), half(file, 46), half(file, 48)
    if programs == 0 or program_size != 32 or (has_sections(file) and section_size != 40):
        raise Refused("Header 65535")
    if programs > 64 or sections > 1024:
        raise Refused("TooMany")
    if word(file, 28) + 32 * programs > len(file):
        raise Refused(f"Short {len(file)}")
    if has_sections(file) and word(file, 32) + 40 * sections > len(file):
        raise Refused(f"Short {len(file)}")


def check_segment(file, segment, before):
    if segment.file_size > segment.size:
        raise Refused(f"Header {segment.index}")
    if segment.file_size > 0 and segment.offset + segment.file_size > len(file):
        raise Refused(f"Short {len(file)}")
    if segment.start < LOWEST or segment.end > END:
        raise Refused(f"Range {segment.index}")
    if segment.flags & WRITE and segment.flags & EXECUTE:
        raise Refused(f"WritableCode {segment.index}")
    for other in before:
        if other.start < segment.end and segment.start < other.end:
            raise Refused(f"Overlap {other.index} {segment.index}")
    if sum(other.size for other in before) + segment.size > MOST_MEMORY:
        raise Refused("TooMany")


def segments_of(file, bias):
    found = []
    for index in range(half(file, 44)):
        kind, offset, address, _, file_size, size, flags, _ = struct.unpack_from("<8I", file, word(file, 28) + 32 * index)
        if kind == PT_LOAD and size > 0:
            segment = Segment(index, address + bias, offset, file_size, size, flags)
            check_segment(file, segment, found)
            found.append(segment)
    if not found:
        raise Refused("Header 0")
    return found


def sections_of(file):
    found = []
    for index in range(half(file, 48) if has_sections(file) else 0):
        fields = struct.unpack_from("<10I", file, word(file, 32) + 40 * index)
        found.append(Section(fields[1], fields[4], fields[5], fields[6]))
    for section in found:
        if section.kind in (SYMTAB, STRTAB, REL, DYNSYM) and section.size > 0 and section.offset + section.size > len(file):
            raise Refused(f"Short {len(file)}")
    return found


def store(image, place, value):
    for k in range(4):
        image.memory[place + k] = value >> 8 * k & 0xFF


def add(image, place, value):
    """Adds to the word in place, or makes it any word where it isn't known."""
    old = [image.memory[place + k] for k in range(4)]
    if None in old:
        for k in range(4):
            image.memory[place + k] = None
    else:
        store(image, place, (value + int.from_bytes(bytes(old), "little")) % 2 ** 32)


def relocate(file, image, table, link, index, place, kind, number):
    """Applies one relocation; `number` is its symbol's index in the table."""
    refused = Refused(f"Relocation {index} {kind}")
    target = next((s for s in image.segments if s.start <= place and place + 4 <= s.end), None)
    if kind not in KINDS or number >= table.size // 16 or target is None:
        raise refused
    if index >= 65536:
        raise Refused("TooMany")
    at = table.offset + 16 * number
    value, size, section = word(file, at + 4), word(file, at + 8), half(file, at + 14)
    if section == 0 and kind in (ADD_SYMBOL, GLOB_DAT, JMP_SLOT):
        if (link, number) not in image.externs:
            image.externs.append((link, number))
        if len(image.externs) > 1024:
            raise Refused("TooMany")
        value = EXTERNS + 16 * image.externs.index((link, number))
    else:
        value = (value + image.bias) % 2 ** 32
    if kind == COPY:
        for address in range(place, min(place + size, target.end)):
            image.memory[address] = None
    elif kind == RELATIVE:
        add(image, place, image.bias)
    elif kind == ADD_SYMBOL:
        add(image, place, value)
    elif kind in (GLOB_DAT, JMP_SLOT):
        store(image, place, value)


def loaded(file):
    """The image of a file; raises what is refused."""
    check_header(file)
    check_tables(file)
    bias = BIAS if half(file, 16) == 3 else 0
    image = Image((word(file, 24) + bias) % 2 ** 32, bias, segments_of(file, bias))
    sections = sections_of(file)
    for s in image.segments:
        content = file[s.offset:s.offset + s.file_size].ljust(s.size, b"\0")
        image.memory.update((s.start + k, byte) for k, byte in enumerate(content))
    index = 0
    for section in sections:
        if section.kind != REL or section.link >= len(sections) or sections[section.link].kind != DYNSYM:
            continue
        for entry in range(section.size // 8):
            place, info = struct.unpack_from("<II", file, section.offset + 8 * entry)
            relocate(file, image, sections[section.link], section.link, index, place + bias, info & 0xFF, info >> 8)
            index += 1
    return image
