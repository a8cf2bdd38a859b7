#!/usr/bin/env python3
"""Times clones, comparisons and joins of maps of 1,000 cells beside plain Rust of the same form, and prints a table: microseconds of
processor for one. The program is scripts/cells_speed.rt.txt, and the Rust scripts/cells_speed.rs, which rustc builds. The program is
put into a folder of its own outside the repository, proved over copies of the repository's libraries, built by LLVM, and run for
each figure.

usage: cells_speed.py [--times N] [--keep FOLDER]   (the least of N runs, 3 unless said; FOLDER is made and kept)"""

import subprocess

from crate_lists import TOP
from speed_program import build, folder_for, least, words_of

USES = ['cell_map', 'image_map', 'strided', 'vset']
TASKS = ['clone', 'equal', 'join', 'below']
CELLS, TURNS = 1000, 100000


def build_plain(folder):
    """The plain Rust, built."""
    plain = folder / 'plain'
    subprocess.run(['rustc', '-C', 'opt-level=3', '-o', str(plain), str(TOP / 'scripts' / 'cells_speed.rs')], check=True)
    return plain


def main():
    asked = words_of(__doc__).parse_args()
    with folder_for('cells_speed', asked.keep) as folder:
        proved = build(folder, 'cells_speed', USES, ['clone', '1', '1'])
        plain = build_plain(folder)
        print('| 1,000 cells | proved, µs | plain Rust, µs | ratio |')
        print('|---|---|---|---|')
        for task in TASKS:
            said, first, _ = least(proved, [task, CELLS, TURNS], asked.times)
            told, second, _ = least(plain, [task, CELLS, TURNS], asked.times)
            if said != told:
                raise SystemExit(f'{task}: {said} and {told}')
            each = 1e6 / TURNS
            print(f'| {task} | {first * each:.1f} | {second * each:.1f} | {first / second:.2f} |', flush=True)


if __name__ == '__main__':
    main()
