#!/usr/bin/env python3
"""Times `close` of asi_cuts over 20,000 made facts of several kinds, and `cell_of` of alocs.

The program that is timed is scripts/time_cuts.rt.txt. It is put into a folder of its own, with copies of the crates that
it stands on, and is proved and run there by `rt run`: so it takes some minutes, most of them for proofs. Nothing is left
behind."""

import argparse
import subprocess
import sys
import tempfile
from pathlib import Path

from speed_program import make

USES = ['alocs', 'asi_cuts', 'image_map', 'item_list']


def main():
    argparse.ArgumentParser(description=__doc__).parse_args()
    with tempfile.TemporaryDirectory() as folder:
        crate = make(Path(folder), 'time_cuts', USES)
        subprocess.run(['git', 'init', '-q', '.'], cwd=folder, check=True)
        run = subprocess.run(['rt', 'run'], cwd=crate, capture_output=True, text=True)
        if run.returncode != 0:
            print(run.stdout[-2000:], run.stderr[-2000:], sep='\n')
            return 1
        print(run.stdout.split('running out/time_cuts')[-1].partition('\n')[2], end='')
    return 0


if __name__ == '__main__':
    sys.exit(main())
