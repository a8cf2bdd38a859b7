"""Programs that are timed: each is proved and built in a folder of its own, over copies of the repository's libraries, and run there."""

import argparse
import contextlib
import os
import shutil
import subprocess
import tempfile
from pathlib import Path

from crate_lists import TOP, named_crates, reached


def make(folder, name, uses):
    """Puts scripts/NAME.rt.txt into a workspace with the libraries that it uses, and gives the folder of its crate."""
    crate = folder / 'crates' / name
    (crate / 'src').mkdir(parents=True, exist_ok=True)
    named = named_crates()
    lines = [' '.join([f'{name}:', *uses])]
    for library in reached(named, uses):
        if not (folder / 'crates' / library).exists():
            shutil.copytree(TOP / 'crates' / library, folder / 'crates' / library)
        lines.append(' '.join([f'{library}:', *named[library]]))
    shutil.copy(TOP / 'scripts' / f'{name}.rt.txt', crate / 'src' / 'main.rt')
    (folder / 'crates.txt').write_text('\n'.join(sorted(lines)) + '\n', encoding='utf-8')
    return crate


def build(folder, name, uses, words):
    """Makes the program, builds it by a run with these words, and gives its path."""
    crate = make(folder, name, uses)
    subprocess.run(['rt', 'run', '--', *words], cwd=crate, check=True, stdout=subprocess.DEVNULL)
    return crate / 'out' / name


def run(program, words):
    """What the program prints, its seconds of processor and its greatest memory in MiB."""
    read, write = os.pipe()
    child = os.fork()
    if child == 0:
        os.dup2(write, 1)
        os.execv(program, [str(program), *map(str, words)])
    os.close(write)
    with os.fdopen(read) as told:
        text = told.read().strip()
    _, status, used = os.wait4(child, 0)
    if status != 0:
        raise SystemExit(f'{program} {words}: status {status}')
    return text, used.ru_utime + used.ru_stime, used.ru_maxrss // 1024


def least(program, words, times):
    """What the program prints, the least seconds of so many runs, and the memory of the first."""
    runs = [run(program, words) for _ in range(times)]
    return runs[0][0], min(seconds for _, seconds, _ in runs), runs[0][2]


def words_of(text):
    """A parser of the words that these scripts take."""
    words = argparse.ArgumentParser(description=text, formatter_class=argparse.RawDescriptionHelpFormatter)
    words.add_argument('--times', type=int, default=3)
    words.add_argument('--keep', type=Path)
    return words


@contextlib.contextmanager
def folder_for(name, kept):
    """The folder that is to be kept, or one that is removed in the end."""
    folder = kept or Path(tempfile.mkdtemp(prefix=name))
    folder.mkdir(parents=True, exist_ok=True)
    try:
        yield folder
    finally:
        if not kept:
            shutil.rmtree(folder)
