"""What GNU objdump makes of a program, in the form in which `surf list` prints instructions.

Imported by the scripts that compare the two. Its examples are run by `python3 -m doctest scripts/objdump_text.py`.
"""

import re
import subprocess
from dataclasses import dataclass

# Where `surf` loads a position-independent file.
DYN_BIAS = 0x00400000

ET_DYN = 3

WIDTHS = {"BYTE": "byte", "WORD": "word", "DWORD": "dword"}

STRING_LETTERS = {"BYTE": "b", "WORD": "w", "DWORD": "d"}

# Words in front of a mnemonic that change nothing in a flat memory, or where the processor ignores them.
EMPTY_PREFIXES = {"cs", "ds", "gs", "data16", "notrack", "bnd"}

OTHER_PREFIXES = {"es", "fs", "ss", "lock", "rep", "repz", "repnz", "addr16", "xacquire", "xrelease"}

REGISTERS_8 = {"al", "cl", "dl", "bl", "ah", "ch", "dh", "bh"}

REGISTERS_16 = {"ax", "cx", "dx", "bx", "sp", "bp", "si", "di"}

REGISTERS_32 = {"eax", "ecx", "edx", "ebx", "esp", "ebp", "esi", "edi"}

# No zeros left out, and a line for each instruction.
LAYOUT = ["-z", "-w", "-M", "intel"]

MEMORY = re.compile(
    r"(?:(?P<size>[A-Z]+) PTR )?(?:(?P<segment>[c-gs]s):)?(?:\[(?P<sum>[^]]+)\]|(?P<absolute>0x[0-9a-f]+))$"
)

TERM = re.compile(r"([+-]?)([^+-]+)")

DISASSEMBLY_LINE = re.compile(r"\s*([0-9a-f]+):\t((?:[0-9a-f]{2} )+)\s*(?:\t(.*))?$")

SYMBOL_LINE = re.compile(r"([0-9a-f]{8}) .{6}(.) (\S+)\t([0-9a-f]{8})\s+(?:\.\S+\s+)?(\S+)$")


@dataclass(frozen=True)
class Instruction:
    """An instruction as objdump has it: the address to which surf loads it, its bytes, and objdump's own text, and that
    text as surf would print it."""

    address: int
    code: bytes
    objdump_text: str
    surf_text: str

    @property
    def end(self):
        return self.address + len(self.code)


@dataclass(frozen=True)
class Function:
    name: str
    start: int
    size: int


def hex8(number):
    return f"0x{number % 2**32:08x}"


def memory_sum(text):
    """The sum of an address, without its index of zero and its displacement of zero.

    >>> memory_sum("ebp+eax*4-0x10"), memory_sum("esi+eiz*1+0x0"), memory_sum("eiz*1+0x0")
    ('ebp+eax*4+0xfffffff0', 'esi', '0x00000000')
    """
    parts = []
    displacement = 0
    for sign, term in TERM.findall(text):
        if term.startswith("0x"):
            displacement += int(sign + term, 16)
        elif not term.startswith("eiz"):
            parts.append(term)
    if displacement != 0 or not parts:
        parts.append(hex8(displacement))
    return "+".join(parts)


def register_width(operands):
    """The width that a register among the operands gives to memory beside it."""
    for operand in operands:
        for width, registers in (("byte", REGISTERS_8), ("word", REGISTERS_16), ("dword", REGISTERS_32)):
            if operand in registers:
                return width
    return "?"


def memory(mnemonic, match, operands):
    segment = match["segment"]
    front = "" if segment in (None, "cs", "ds") else segment + ":"
    text = f"[{front}{memory_sum(match['sum'] or match['absolute'])}]"
    if mnemonic in ("lea", "nop"):
        return text
    width = WIDTHS.get(match["size"], match["size"]) if match["size"] else register_width(operands)
    return f"{width} {text}"


def is_branch(mnemonic):
    return mnemonic == "call" or mnemonic.startswith("j")


def operand(mnemonic, text, operands, bias):
    """One operand, where `operands` are all of the instruction.

    >>> operand("mov", "ds:0x804c010", ["al", "ds:0x804c010"], 0), operand("shl", "1", ["eax", "1"], 0)
    ('byte [0x0804c010]', '0x1')
    >>> operand("sub", "DWORD PTR gs:0x14", [], 0), operand("jne", "9000", ["9000"], 0x400000)
    ('dword [gs:0x00000014]', '0x00409000')
    """
    if is_branch(mnemonic) and re.fullmatch(r"(0x)?[0-9a-f]+", text):
        return hex8(int(text, 16) + bias)
    if re.fullmatch(r"0x[0-9a-f]+|[0-9]+", text):
        return hex(int(text, 0))
    match = MEMORY.match(text)
    return memory(mnemonic, match, operands) if match else text


def string_instruction(prefixes, mnemonic, operands):
    """`movs` and `stos` have no operands in surf's text, and the letter of their width. Another segment than theirs is
    kept, since surf decodes none.

    >>> string_instruction([], "movs", ["WORD PTR es:[edi]", "WORD PTR gs:[esi]"])
    'movsw gs:'
    """
    size = operands[0].split(" ")[0]
    others = [segment for segment in ("fs:", "gs:", "ss:", "es:[esi]") if segment in "".join(operands)]
    return " ".join(prefixes + [mnemonic + STRING_LETTERS.get(size, "?")] + others)


def without_annotation(text):
    """Drops the symbol that objdump names behind a target."""
    return re.sub(r"\s*<[^>]*>$", "", text)


def split(text):
    """The prefixes that mean something, the mnemonic, and the operands."""
    prefixes = []
    words = without_annotation(text).split(None, 1)
    while words[0] in EMPTY_PREFIXES | OTHER_PREFIXES and len(words) > 1:
        if words[0] in OTHER_PREFIXES:
            prefixes.append(words[0])
        words = words[1].split(None, 1)
    operands = words[1].split(",") if len(words) > 1 else []
    return prefixes, words[0], [operand.strip() for operand in operands]


def surf_text(text, bias=0):
    """What `surf list` prints, of a file that it moves by `bias`, for an instruction that objdump prints as `text`.

    >>> surf_text("and    esp,0xfffffff0"), surf_text("push   DWORD PTR [ecx-0x4]")
    ('and esp, 0xfffffff0', 'push dword [ecx+0xfffffffc]')
    >>> surf_text("rep stos DWORD PTR es:[edi],eax"), surf_text("repz ret"), surf_text("shl    eax,1")
    ('rep stosd', 'ret', 'shl eax, 0x1')
    >>> surf_text("call   8049040 <puts@plt>"), surf_text("notrack jmp DWORD PTR [eax*4+0x804a008]")
    ('call 0x08049040', 'jmp dword [eax*4+0x0804a008]')
    >>> surf_text("data16 cs nop WORD PTR [eax+eax*1+0x0]"), surf_text("lea    esi,[esi+eiz*1+0x0]")
    ('nop [eax+eax*1]', 'lea esi, [esi]')
    """
    prefixes, mnemonic, operands = split(text)
    if mnemonic in ("movs", "stos"):
        return string_instruction(prefixes, mnemonic, operands)
    if mnemonic == "ret" and prefixes == ["repz"]:
        prefixes = []
    front = " ".join(prefixes + [mnemonic])
    return " ".join([front, ", ".join(operand(mnemonic, each, operands, bias) for each in operands)]).rstrip()


def mnemonic_of(text):
    """The name under which an instruction is counted."""
    prefixes, mnemonic, _ = split(text)
    return " ".join(prefixes + [mnemonic])


def run(*command):
    return subprocess.run(command, check=True, capture_output=True, text=True, errors="replace").stdout


def bias_of(path):
    with open(path, "rb") as file:
        header = file.read(18)
    return DYN_BIAS if int.from_bytes(header[16:18], "little") == ET_DYN else 0


def instructions_of(disassembly, bias):
    found = []
    for line in disassembly.splitlines():
        match = DISASSEMBLY_LINE.match(line)
        if match:
            text = (match[3] or "(bad)").strip()
            code = bytes.fromhex(match[2])
            found.append(Instruction(int(match[1], 16) + bias, code, text, surf_text(text, bias)))
    return found


def disassembled(path, section):
    """The instructions of a section, one after the other."""
    return instructions_of(run("objdump", "-d", *LAYOUT, "-j", section, path), bias_of(path))


def disassembled_code(path, address):
    """The instructions of a file that has nothing but code, for this address."""
    kind = ["-b", "binary", "-m", "i386", f"--adjust-vma={address}"]
    return instructions_of(run("objdump", "-D", *LAYOUT, *kind, path), 0)


def functions(path, section):
    """The functions of a section that have a size, by rising address: of each address the longest."""
    bias = bias_of(path)
    found = {}
    for line in run("objdump", "-t", path).splitlines():
        match = SYMBOL_LINE.match(line)
        if not match or match[2] != "F" or match[3] != section:
            continue
        function = Function(match[5], int(match[1], 16) + bias, int(match[4], 16))
        if function.size > 0 and (function.start not in found or function.size > found[function.start].size):
            found[function.start] = function
    return [found[start] for start in sorted(found)]
