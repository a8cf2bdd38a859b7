"""Compares what `surf list` prints with what objdump prints, stretch by stretch of a file's code.

Imported by the scripts that make the files.
"""

import os
import subprocess
from collections import Counter
from dataclasses import dataclass, field

import objdump_text

# The most instructions that one `surf list` prints.
MOST_STEPS = 65536

# How many are asked for at once: few, since a list that stops is begun anew behind.
AT_ONCE = 512

SURF = os.path.join(os.path.dirname(os.path.dirname(os.path.abspath(__file__))), "surf")


class ListFailed(Exception):
    """`surf list` ended with a status, or its text has another form."""


@dataclass
class Stretch:
    """Instructions one after the other: those of a function, or what stands between two."""

    name: str
    instructions: list


@dataclass(frozen=True)
class Difference:
    file: str
    stretch: str
    address: int
    code: bytes
    objdump: str
    surf: str

    def __str__(self):
        place = f"{self.file}, {self.stretch}, {self.address:08x} {self.code.hex(' ')}"
        return f"{place}\n    objdump: {self.objdump}\n    surf:    {self.surf}"


@dataclass
class Tally:
    files: int = 0
    functions: int = 0
    compared: int = 0
    differences: list = field(default_factory=list)
    not_decoded: Counter = field(default_factory=Counter)
    examples: dict = field(default_factory=dict)

    def misses(self, instruction):
        """Counts an instruction that surf doesn't list, and keeps the first of its name."""
        mnemonic = objdump_text.mnemonic_of(instruction.objdump_text)
        self.not_decoded[mnemonic] += 1
        self.examples.setdefault(mnemonic, instruction)


def listed(surf, path, at, steps):
    """The lines of `surf list`, as addresses and texts."""
    command = [surf, "list", path, "--at", f"0x{at:08x}", "--steps", str(steps)]
    outcome = subprocess.run(command, capture_output=True, text=True)
    if outcome.returncode != 0:
        raise ListFailed(f"{' '.join(command)}: status {outcome.returncode}, {outcome.stderr.strip()}")
    lines = outcome.stdout.splitlines()
    if not lines or lines[-1] != f"end {len(lines) - 1}":
        raise ListFailed(f"{' '.join(command)}: the last line isn't the count")
    found = [(int(line[:8], 16), line[9:]) for line in lines[:-1]]
    if found and found[0][0] != at:
        raise ListFailed(f"{' '.join(command)}: begins at another address")
    return found


def comparable(text):
    """An exchange of two registers means the same in both orders, and objdump writes a nop of 16 bits as one."""
    mnemonic, _, operands = text.partition(" ")
    if text == "xchg ax, ax":
        return "nop"
    if mnemonic == "xchg":
        return " ".join([mnemonic, ", ".join(sorted(operands.split(", ")))])
    return text


def stretches(instructions, functions):
    """Cuts a section's instructions where functions begin and end."""
    starts = {function.start: function.name for function in functions}
    ends = {function.start + function.size: function.name for function in functions}
    found = []
    for previous, instruction in zip([None] + instructions, instructions):
        at = instruction.address
        if at in starts:
            found.append(Stretch(starts[at], []))
        elif previous is None or at in ends or previous.end != at:
            found.append(Stretch(f"after {ends.get(at, 'no function')}", []))
        found[-1].instructions.append(instruction)
    return found


class Comparison:
    """Compares stretches, and counts what it finds."""

    def __init__(self, surf):
        self.surf = surf
        self.tally = Tally()

    def differs(self, file, stretch, expected, text):
        difference = Difference(file, stretch.name, expected.address, expected.code, expected.surf_text, text)
        self.tally.differences.append(difference)

    def compare_run(self, file, stretch, expected, lines):
        """Compares instructions with the lines from the first on, and says how many are done with: up to the first
        that surf doesn't list, or that has another length."""
        for i, instruction in enumerate(expected):
            if i == len(lines):
                self.tally.misses(instruction)
                return i + 1
            self.tally.compared += 1
            text = lines[i][1]
            if comparable(text) != comparable(instruction.surf_text):
                self.differs(file, stretch, instruction, text)
            if i + 1 < len(lines) and lines[i + 1][0] != instruction.end:
                self.differs(file, stretch, instruction, f"{text} (up to {lines[i + 1][0]:08x})")
                return i + 1
        return len(expected)

    def compare_stretch(self, path, file, stretch):
        """One line more than the instructions is asked for, so that the last length is seen too."""
        done = 0
        while done < len(stretch.instructions):
            expected = stretch.instructions[done : done + AT_ONCE]
            lines = listed(self.surf, path, expected[0].address, len(expected) + 1)
            done += self.compare_run(file, stretch, expected, lines)

    def compare_file(self, path, file, section=".text"):
        functions = objdump_text.functions(path, section)
        instructions = objdump_text.disassembled(path, section)
        for stretch in stretches(instructions, functions):
            self.compare_stretch(path, file, stretch)
        self.tally.files += 1
        self.tally.functions += len(functions)


def print_summary(tally, shown):
    """Prints what was found, with at most `shown` of the differences and of the names of what isn't decoded."""
    for difference in tally.differences[:shown]:
        print(difference)
    if len(tally.differences) > shown:
        print(f"and {len(tally.differences) - shown} more differences")
    counts = f"files {tally.files}, functions {tally.functions}, instructions compared {tally.compared}"
    print(f"{counts}, differences {len(tally.differences)}, not decoded {sum(tally.not_decoded.values())}")
    for mnemonic, count in tally.not_decoded.most_common(shown):
        example = tally.examples[mnemonic]
        print(f"    not decoded: {count} {mnemonic}, as {example.code.hex(' ')}: {example.objdump_text}")
