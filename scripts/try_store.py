#!/usr/bin/env python3
"""Runs threads over one store of `round_slots`: do all values that are pinned tell one round, and how fast are pins?

The program (`store_trial`) is proved and built in a temporary folder beside copies of `round_core` and `round_slots`, which
takes some minutes. First eight readers and three publishers share four lanes for some ten thousand rounds: each reader
looks whether a value tells its round twice, and whether a lane's rounds fall. Then the pins and leaves a second on one lane
are printed as a table, and the calls for memory of a short run and of a long one, which are counted by a library of C
(`gcc`). Ends with status 1 where a reader found a mistake, a round is missing, or a long run asked for more memory.
"""

import argparse
import os
import re
import shutil
import subprocess
import sys
import tempfile
from pathlib import Path

TOP = Path(__file__).resolve().parent.parent

LIBRARIES = ['round_core', 'round_slots']

PROGRAM = 'store_trial'

READERS = [1, 2, 4]

# Of three runs the fastest is told, since other work on the machine slows the others.
RUNS = 3

REPORT = re.compile(r'pins (\d+) rounds (\d+) last (\d+) mistakes (\d+) micros (\d+)')

COUNTER = r'''
#include <stddef.h>
#include <stdio.h>
#include <sys/syscall.h>
#include <unistd.h>
extern void *__libc_malloc(size_t), *__libc_calloc(size_t, size_t), *__libc_realloc(void *, size_t);
extern void *__libc_memalign(size_t, size_t);
static unsigned long calls;
static void count(void) { __atomic_fetch_add(&calls, 1, __ATOMIC_RELAXED); }
void *malloc(size_t n) { count(); return __libc_malloc(n); }
void *calloc(size_t n, size_t m) { count(); return __libc_calloc(n, m); }
void *realloc(void *p, size_t n) { count(); return __libc_realloc(p, n); }
void *memalign(size_t a, size_t n) { count(); return __libc_memalign(a, n); }
void *aligned_alloc(size_t a, size_t n) { count(); return __libc_memalign(a, n); }
int posix_memalign(void **p, size_t a, size_t n) { count(); *p = __libc_memalign(a, n); return *p ? 0 : 12; }
void _exit(int status) {
    dprintf(2, "calls %lu\n", calls);
    syscall(SYS_exit_group, status);
    __builtin_unreachable();
}
'''


def program_in(folder):
    """Proves and builds the program in the folder, and gives its path."""
    lines = [line for line in (TOP / 'crates.txt').read_text(encoding='utf-8').splitlines()
             if line.split(':')[0] in LIBRARIES]
    (folder / 'crates.txt').write_text('\n'.join(lines + [f'{PROGRAM}: round_slots', '']), encoding='utf-8')
    shutil.copy(TOP / 'HANDLES', folder)
    for library in LIBRARIES:
        for kind in ('src', 'specs', 'proofs', 'out'):
            if (TOP / 'crates' / library / kind).is_dir():
                shutil.copytree(TOP / 'crates' / library / kind, folder / 'crates' / library / kind)
    crate = folder / 'crates' / PROGRAM
    kept = TOP / 'scripts' / PROGRAM
    for source in kept.rglob('*.txt'):
        # The endings keep these files out of the crates of the repository.
        target = crate / source.relative_to(kept).with_suffix('')
        target.parent.mkdir(parents=True, exist_ok=True)
        shutil.copy(source, target)
    subprocess.run(['git', 'init', '-q'], cwd=folder, check=True)
    built = subprocess.run(['rt', 'run', '--', '1', '0', '1', '1', '0'], cwd=crate, capture_output=True, text=True)
    program = crate / 'out' / PROGRAM
    if built.returncode != 0 or not program.exists():
        sys.exit(f'not built:\n{built.stdout[-2000:]}{built.stderr[-2000:]}')
    return program


class Report:
    """What a run of the program did."""

    def __init__(self, program, words, counter=None):
        preload = {'LD_PRELOAD': str(counter)} if counter else {}
        run = subprocess.run([program, *map(str, words)], capture_output=True, text=True, check=True, timeout=300,
                             env={**os.environ, **preload})
        numbers = REPORT.fullmatch(run.stdout.strip())
        self.pins, self.rounds, self.last, self.mistakes, self.micros = map(int, numbers.groups())
        calls = re.search(r'calls (\d+)', run.stderr)
        self.calls = int(calls.group(1)) if calls else None
        if self.mistakes or self.rounds != self.last:
            sys.exit(f'{words}: {run.stdout}')

    def pins_a_second(self):
        return self.pins / self.micros

    def rounds_a_second(self):
        return self.rounds / self.micros


def try_threads(program):
    """Eight readers and three publishers on four lanes, until each publisher has published its rounds."""
    for _ in range(RUNS):
        report = Report(program, [8, 3, 4, 0, 3400])
        print(f'{report.rounds} rounds, {report.pins} pins, no mistake, {report.micros / 1000:.1f} ms')


def measure(program, pins):
    """The pins and leaves a second of some readers on one lane, without and with a publisher."""
    print('\n| Readers | pins, alone | pins, beside a publisher | rounds published |\n|---|---|---|---|')
    for readers in READERS:
        alone = max((Report(program, [readers, 0, 1, pins, 0]) for _ in range(RUNS)), key=Report.pins_a_second)
        beside = max((Report(program, [readers, 1, 1, pins, 0]) for _ in range(RUNS)), key=Report.pins_a_second)
        print(f'| {readers} | {alone.pins_a_second():.1f} | {beside.pins_a_second():.1f} | {beside.rounds_a_second():.1f} |')
    print('Millions a second, of all threads together.\n')


def count_memory(program, folder, pins):
    """A long run asks for memory no more often than a short one."""
    if shutil.which('gcc') is None:
        print('calls for memory not counted: gcc is missing')
        return
    source, counter = folder / 'counter.c', folder / 'counter.so'
    source.write_text(COUNTER, encoding='utf-8')
    subprocess.run(['gcc', '-O1', '-shared', '-fPIC', '-o', counter, source], check=True)
    for readers, publishers in [(1, 0), (4, 0), (4, 1)]:
        short, long = (Report(program, [readers, publishers, 1, count, 0], counter).calls for count in (1, pins))
        print(f'{readers} readers, {publishers} publishers: {short} calls for memory with 1 pin each, {long} with {pins}')
        if short is None or long != short:
            sys.exit('the calls for memory grow')


def main():
    parser = argparse.ArgumentParser(description=__doc__, formatter_class=argparse.RawDescriptionHelpFormatter)
    parser.add_argument('--pins', type=int, default=2_000_000, help='pins of each reader (2000000)')
    pins = parser.parse_args().pins
    if shutil.which('rt') is None:
        print('skipped: rt is missing')
        return
    with tempfile.TemporaryDirectory(prefix='store-trial-') as name:
        folder = Path(name)
        program = program_in(folder)
        try_threads(program)
        measure(program, pins)
        count_memory(program, folder, pins)


if __name__ == '__main__':
    main()
