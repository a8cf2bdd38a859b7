#!/usr/bin/env python3
"""Checks which crates may stand on which, by crates.txt and the imports of each crate's files.

What must not depend on what is written down here, once; docs/ARCHITECTURE.md says why. Ends with status 1 where a rule
is broken, or a crate of the repository is used that crates.txt doesn't name."""

import re
import sys

from crate_lists import TOP, named_crates, reached

# (crates, by a pattern of their names; what none of them may reach; why)
RULES = [
    (r'flow_graph|dep_graph|control_walks|slicer|chops|matched_calls', r'ia32_\w+|image_map|elf32',
     'graphs and slices know nodes and places, and no machine'),
    (r'elf32|image_map|alocs|asi_cuts', r'ia32_\w+', 'files and memory know no instructions'),
    (r'call_strings|last_writers', r'ia32_\w+|image_map|elf32', 'nodes and last writers are numbers alone'),
    (r'strided|si_bits', r'ia32_\w+|image_map|elf32', 'intervals are numbers alone'),
    (r'sweeps', r'ia32_\w+|image_map|elf32|call_strings|strided|vset|flow_graph', 'sweeps know places and states of any domain'),
    (r'round_core|round_slots', r'ia32_\w+|image_map|elf32|flow_graph|dep_graph|slicer',
     'the store of rounds holds values of any type'),
    (r'ia32_types|ia32_decode|ia32_print', r'elf32|image_map', 'instructions are bytes, wherever they stand'),
    (r'(?!surf_prog$|generator$|reading_tests$|answer_tests$)\w+', r'elf32', 'only the program reads files, and the generator makes them'),
    (r'(?!surf_prog$)\w+', r'surf_prog', 'nothing stands on the program'),
    (r'\w+', r'reading_tests', 'nothing stands on tests'),
]

# Only the program touches files and streams.
OUTSIDE = re.compile(r'\buse std::(?:\{[^}]*\b)?(?:fs|env|net|process)\b|\bHostRuntime\b|\bstdout\(|\bstderr\(')


def broken_rules(named):
    for crates_pattern, libraries_pattern, why in RULES:
        for crate in named:
            if re.fullmatch(crates_pattern, crate):
                for library in reached(named, named[crate]):
                    if re.fullmatch(libraries_pattern, library):
                        yield f'{crate} stands on {library}: {why}'


def used_libraries(crate):
    """The names of libraries in a crate's files, and the text of its code without its tests."""
    files = [f for kind in ('src', 'specs', 'proofs') for f in (TOP / 'crates' / crate / kind).rglob('*')
             if f.suffix in ('.rt', '.antt')]
    text = '\n'.join(f.read_text(encoding='utf-8') for f in files)
    code = '\n'.join(f.read_text(encoding='utf-8').split('#[cfg(test)]')[0] for f in files
                     if f.suffix == '.rt' and f.name != 'tests.rt' and 'tests' not in f.parent.name)
    used = set(re.findall(r'\buse (\w+)(?:::|;)', text)) | set(re.findall(r'\bRattle\.(\w+)\.', text))
    return used | {library for library in re.findall(r'\b(\w+)::', text)}, code


def main():
    named = named_crates()
    faults = list(broken_rules(named))
    for crate in named:
        used, code = used_libraries(crate)
        faults += [f'{crate} uses {library} and doesn\'t name it' for library in sorted(used)
                   if library in named and library != crate and library not in named[crate]]
        if crate != 'surf_prog' and OUTSIDE.search(code):
            faults.append(f'{crate} touches the outside: only surf_prog may')
    print('\n'.join(faults) if faults else f'{len(named)} crates keep the rules')
    return 1 if faults else 0


if __name__ == '__main__':
    sys.exit(main())
