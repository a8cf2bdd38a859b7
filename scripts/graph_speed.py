#!/usr/bin/env python3
"""Compares both bodies of edges and of controls on small graphs, times edges, controls and slices of great ones, and prints a
table: seconds of processor without those of making the graph, and the greatest memory in MiB. `controls` and `plain-controls`
take one node of 64; `slice` takes in the edges. The program is scripts/graph_speed.rt.txt. It is put into a folder of its own
outside the repository, proved over copies of the repository's libraries, built by LLVM, and run for each figure.

usage: graph_speed.py [--times N] [--keep FOLDER]   (the least of N runs, 3 unless said; FOLDER is made and kept)"""

from speed_program import build, folder_for, least, run, words_of

LIBRARIES = ['control_walks', 'dep_graph', 'flow_graph', 'item_list', 'slicer']

# The numbers of a chain of nodes, in order, reversed and shuffled: a factor, and what is added.
ORDERS = {'in order': (1, 0), 'reversed': (-1, -1), 'shuffled': (1597, 7)}

# nodes, of which so many use and define every place
GRAPHS = [(4096, 0), (4096, 100), (8192, 0), (8192, 100)]

# On so many small graphs both bodies are compared.
COMPARED = 1000

TASKS = ['edges', 'plain-edges', 'controls', 'plain-controls', 'slice']


def main():
    asked = words_of(__doc__).parse_args()
    with folder_for('graph_speed', asked.keep) as folder:
        program = build(folder, 'graph_speed', LIBRARIES, ['make', '1', '0', '1', '0'])
        same, _, _ = run(program, ['compare', COMPARED])
        print(f'Of {COMPARED} small graphs both bodies give the same edges and branches of {same}.')
        print('| Nodes | wide | numbers | task | result | seconds | MiB |')
        print('|---|---|---|---|---|---|---|')
        for nodes, wide in GRAPHS:
            for order, (stride, shift) in ORDERS.items():
                shape = [nodes, wide, stride % nodes, shift % nodes]
                _, made, _ = least(program, ['make', *shape], asked.times)
                for task in TASKS:
                    if task not in ('edges', 'slice') and order != 'in order':
                        continue
                    text, seconds, memory = least(program, [task, *shape], 1 if task.startswith('plain') else asked.times)
                    print(f'| {nodes} | {wide} | {order} | {task} | {text} | {max(0, seconds - made):.2f} | {memory} |', flush=True)


if __name__ == '__main__':
    main()
