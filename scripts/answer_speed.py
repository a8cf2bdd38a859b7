#!/usr/bin/env python3
"""Times answers on rounds of two programs side by side, and prints a table.

Usage: answer_speed.py PROGRAM PEER. Rows are the generator's programs, programs of scripts/samples by gcc -m32, and hostile ones:
each instruction a store through any address, jump tables of 1,024 targets, calls of 1,024 externs, procedures that call one another,
and a file with much data. Of each the least time of three runs and the greatest memory of them is told, and the ratio to the peer's. It
needs gcc with -m32.
"""

import json
import os
import subprocess
import sys
import tempfile
import time
from pathlib import Path

from compare_list import SAMPLES, compiled

TURNS = 3

SECONDS = 120

# The word by which this script calls itself to measure one run.
MEASURED = "--measured"


def measured(words):
    """Prints seconds, KiB and the status of one run of a program: in a process of its own, whose memory is small."""
    began = time.monotonic()
    child = os.posix_spawn(words[0], words, os.environ, file_actions=[(os.POSIX_SPAWN_OPEN, 1, os.devnull, os.O_WRONLY, 0), (os.POSIX_SPAWN_OPEN, 2, os.devnull, os.O_WRONLY, 0)])
    _, status, used = os.wait4(child, 0)
    print(time.monotonic() - began, used.ru_maxrss, os.waitstatus_to_exitcode(status))


def once(program, words):
    """Seconds, MiB and the status of one run."""
    try:
        done = subprocess.run([sys.executable, __file__, MEASURED, program, *words], capture_output=True, text=True, timeout=SECONDS, check=True)
    except subprocess.TimeoutExpired:
        return SECONDS, 0, "late"
    seconds, memory, status = done.stdout.split()
    return float(seconds), int(memory) / 1024, int(status)


def timed(program, words):
    runs = [once(program, words) for _ in range(TURNS)]
    return min(run[0] for run in runs), max(run[1] for run in runs), runs[0][2]


def assembled(folder, name, text):
    source, path = folder / f"{name}.s", folder / name
    source.write_text(".intel_syntax noprefix\n.globl _start\n" + text)
    subprocess.run(["gcc", "-m32", "-nostdlib", "-no-pie", "-o", path, source], check=True, capture_output=True)
    return path


def criterion(program, path, entry):
    """The last address of the entry's procedure that the last round comes to."""
    text = subprocess.run([program, "graph", str(path), *entry], capture_output=True, text=True).stdout
    nodes = json.loads(text.splitlines()[0])["nodes"]
    return f"{max(node['at'] for node in nodes if not node['sites']):#x}"


def hostile(folder):
    stores = "\n".join(["mov [eax], ebx", "add ebx, [ecx]"] * 1000)
    yield "2,000 accesses through any address", assembled(folder, "stores", f"_start: {stores}\nret\n")
    cases = "\n".join(f"case{n}: inc ecx\nret" for n in range(1024))
    table = "\n".join(f".long case{n}" for n in range(1024))
    yield "a jump table of 1,024 targets", assembled(folder, "table", f"_start: cmp eax, 1023\nja out\njmp dword ptr [eax*4 + table]\n{cases}\nout: ret\n.section .rodata\ntable: {table}\n")
    chain = "\n".join(f"p{n}: push ebp\nmov ebp, esp\nsub esp, 40\nmov [ebp - 8], eax\ncmp eax, {n}\nje q{n}\ndec eax\ncall p{(n + 1) % 5}\ncall p{(n + 2) % 5}\nq{n}: leave\nret" for n in range(5))
    yield "five procedures that call one another", assembled(folder, "mutual", f"_start: call p0\nhlt\n{chain}\n")
    many = "\n".join(f"call r{n}" for n in range(200))
    small = "\n".join(f"r{n}: sub esp, 64\nmov [esp + {4 * (n % 16)}], eax\nmov eax, [esp + 4]\nadd esp, 64\nret" for n in range(200))
    yield "200 procedures with frames", assembled(folder, "procedures", f"_start: {many}\nhlt\n{small}\n")
    yield "12 MiB of data", assembled(folder, "data", "_start: mov eax, [big + 4]\nmov [big + 8], eax\nret\n.data\nbig: .fill 3145728, 4, 5\n")


def rows(program, folder):
    for items in (400, 1000):
        for lane in ("0", "2"):
            yield f"gen 1 {items}, lane {lane}", ["gen", "1", str(items), "--lane", lane]
    for stem in ("loops", "structs", "strings", "switches", "recursion"):
        for level in ("-O0", "-O2"):
            path = compiled(os.path.join(SAMPLES, f"{stem}.c"), [level, "-fno-pic", "-no-pie"], folder, f"{stem}{level}")
            if path is not None:
                entry = ["--entry", "main"]
                yield f"{stem}.c {level}", ["slice", path, "--at", criterion(program, path, entry), *entry]
    for name, path in hostile(folder):
        yield name, ["slice", str(path), "--at", criterion(program, path, [])]


def main():
    program, peer = sys.argv[1:3]
    print("| What | status | ms | MiB | peer's ms | peer's MiB | time to the peer's |\n|---|---|---|---|---|---|---|")
    with tempfile.TemporaryDirectory() as name:
        for what, words in rows(peer, Path(name)):
            mine, other = timed(program, words), timed(peer, words)
            same = mine[2] if mine[2] == other[2] else f"{mine[2]} / {other[2]}"
            print(f"| {what} | {same} | {1000 * mine[0]:.0f} | {mine[1]:.0f} | {1000 * other[0]:.0f} | {other[1]:.0f} | {mine[0] / other[0]:.2f} |", flush=True)


if __name__ == "__main__":
    if sys.argv[1:2] == [MEASURED]:
        measured(sys.argv[2:])
    else:
        main()
