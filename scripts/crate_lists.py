"""What crates.txt says: which libraries each crate uses, and on which crates of the repository it stands."""

from pathlib import Path

TOP = Path(__file__).resolve().parent.parent


def named_crates():
    """The libraries that each crate names."""
    named = {}
    for line in (TOP / 'crates.txt').read_text(encoding='utf-8').splitlines():
        head, colon, tail = line.split('#')[0].partition(':')
        if colon:
            named[head.split()[0]] = tail.split()
    return named


def reached(named, names):
    """Those of these libraries that are crates of the repository, and all crates that they stand on, in order."""
    found, left = set(), list(names)
    while left:
        name = left.pop()
        if name in named and name not in found:
            found.add(name)
            left += named[name]
    return sorted(found)
