#!/usr/bin/env python3
"""Prints the definition files that a public call's contract rests on, in an order in which each comes after those that it
imports, with their lines: what a reader has to believe, beside the contract itself and the types of the code.

usage: reading_list.py [FILE FUNCTION]   (without words: the top call `once`; paths from the repository's top)"""

import re
import sys
from pathlib import Path

TOP = Path(__file__).resolve().parent.parent
IMPORT = re.compile(r'^[ \t]*(?:ghost )?use Rattle\.(\w+)\.specs\.([\w.]+?)(?:\.\{(.*?)\}|\s+as\s+\w+)?;?\s*$', re.M)


def imports(text):
    """Each import of a definition: the crate, the module, and the names as they are written here."""
    for crate, module, names in IMPORT.findall(text):
        if (TOP / 'crates' / crate).is_dir() and not re.match(r'(declared|contracts)\b', module):
            yield crate, module, [n.split(' as ')[-1].strip() for n in names.split(',')] if names else [module.split('.')[-1]]


def spec_file(crate, module):
    parts = module.split('.')
    while parts:
        path = TOP / 'crates' / crate / 'specs' / ('/'.join(parts) + '.antt')
        if path.is_file():
            return path
        parts.pop()
    return None


def contract(text, function):
    """A public function's text up to its body."""
    start = re.search(rf'^\s*pub fn {function}\b', text, re.M).start()
    return text[start:re.search(r'^\s*\{', text[start:], re.M).start() + start]


def cited(text, function):
    words = set(re.findall(r'[\w]+', contract(text, function)))
    return [(crate, module) for crate, module, names in imports(text) if words & set(names)]


def closure(path, done):
    """The file after all that it imports."""
    if path in done:
        return
    done[path] = None
    for crate, module, _ in imports(path.read_text(encoding='utf-8')):
        below = spec_file(crate, module)
        if below is not None:
            closure(below, done)
    done.pop(path)
    done[path] = path.read_text(encoding='utf-8').count('\n')


def main():
    file, function = sys.argv[1:3] if len(sys.argv) > 2 else ('crates/surf_prog/src/request.rt', 'once')
    text = (TOP / file).read_text(encoding='utf-8')
    done = {}
    for crate, module in cited(text, function):
        path = spec_file(crate, module)
        if path is not None:
            closure(path, done)
    print(f'| Definitions under `{function}` | Lines |\n|---|---|')
    for path, lines in done.items():
        print(f'| `{path.relative_to(TOP / "crates")}` | {lines} |')
    print(f'| {len(done)} files | {sum(done.values())} |')


if __name__ == '__main__':
    main()
