#!/usr/bin/env python3
"""Compares matched edges and matched control of small graphs with a search over walks with their pending calls, and times matched edges
of great graphs beside data edges: seconds of processor without those of making the graph, and the greatest memory in MiB. The program
is scripts/matched_speed.rt.txt. It is put into a folder of its own outside the repository, proved over copies of the repository's
libraries, built by LLVM, and run for each figure.

usage: matched_speed.py [--times N] [--graphs N] [--keep FOLDER]   (the least of N runs, 3 unless said; FOLDER is made and kept)"""

from speed_program import build, folder_for, least, run, words_of

LIBRARIES = ['chops', 'control_walks', 'dep_graph', 'flow_graph', 'item_list', 'matched_calls', 'slicer']

# a name; procedures, nodes of each, wide nodes, calls of each, and whether calls go round
SHAPES = {
    'a dag of 64 procedures': (64, 64, 0, 6, 0),
    'the same, 100 wide nodes': (64, 64, 100, 6, 0),
    'a chain of 1,024 calls': (1025, 4, 0, 1, 0),
    'recursion, 1,024 procedures': (1024, 4, 0, 1, 1),
}

# So many calls may be pending in the search, which finds no longer walks.
DEEP = 6


class Graph:
    """A printed graph, with what the program found of it."""

    def __init__(self):
        self.nodes = []
        self.pairs = {word: set() for word in ('call', 'return', 'after', 'ordinary', 'sp', 'control')}

    def read(self, word, numbers):
        if word == 'node':
            self.nodes.append({'at': numbers[0], 'branch': numbers[1], 'end': numbers[2], 'next': [], 'use': [], 'may': [], 'must': []})
        elif word in self.pairs:
            self.pairs[word].add(tuple(numbers))
        else:
            self.nodes[-1][word] += numbers

    def steps(self, m, pending):
        """Where a walk goes on from m, with the calls that are pending then."""
        for n in self.nodes[m]['next'] if m < len(self.nodes) else []:
            pair, is_other = (m, n), True
            if pair in self.pairs['call']:
                is_other = False
                yield n, pending + (m,)
            if pair in self.pairs['return']:
                is_other = False
                if not pending:
                    yield n, pending
                elif (pending[-1], n) in self.pairs['after']:
                    yield n, pending[:-1]
            if is_other:
                yield n, pending

    def reached(self, m, keeps):
        """The nodes to which a matched walk goes from m over kept inner nodes, with few calls pending at a time."""
        found, seen, work = set(), {(m, ())}, [(m, ())]
        while work:
            node, pending = work.pop()
            for n, left in self.steps(node, pending):
                found.add(n)
                if keeps(n) and len(left) <= DEEP and (n, left) not in seen:
                    seen.add((n, left))
                    work.append((n, left))
        return found

    def walked(self, m):
        """The nodes to which a walk of no or more steps goes from m."""
        found, work = {m}, [m]
        while work:
            node = work.pop()
            for n in self.nodes[node]['next'] if node < len(self.nodes) else []:
                if n not in found:
                    found.add(n)
                    work.append(n)
        return found

    def escapes(self, y, at):
        """Whether some walk of no or more steps leads from y to an end round an address."""
        found, work = set(), [y]
        while work:
            node = work.pop()
            if node in found or node >= len(self.nodes) or self.nodes[node]['at'] == at:
                continue
            found.add(node)
            work += self.nodes[node]['next']
        return any(self.nodes[node]['end'] for node in found)

    def controls(self, b, n):
        """Whether branch b controls node n."""
        inside = [x for x in self.nodes[b]['next'] if x < len(self.nodes)]
        at = [self.nodes[x]['at'] for x in range(len(self.nodes))]
        return bool(self.nodes[b]['branch']) and any(
            at[x] != at[y] and n in self.walked(x) and self.escapes(y, at[n]) for x in inside for y in inside)

    def is_as_told(self):
        """Whether the edges and the control that the program printed are those of the search."""
        told = {word: set() for word in ('ordinary', 'sp', 'control')}
        numbers = range(len(self.nodes))
        for place in {place for node in self.nodes for place in node['use']}:
            for m in numbers:
                if place in self.nodes[m]['may']:
                    reached = self.reached(m, lambda i: i >= len(self.nodes) or place not in self.nodes[i]['must'])
                    told['sp' if place == 4 else 'ordinary'] |= {(m, n) for n in reached if n < len(self.nodes) and place in self.nodes[n]['use']}
        for b in numbers:
            reached = self.reached(b, lambda i: True)
            told['control'] |= {(b, n) for n in reached if n < len(self.nodes) and self.controls(b, n)}
        return all(told[word] == self.pairs[word] for word in told)


def graphs(text):
    """The graphs of a print."""
    graph = None
    for line in text.splitlines():
        word, *numbers = line.split()
        if word == 'graph':
            if graph:
                yield graph
            graph = Graph()
        elif word.isalpha():
            graph.read(word, [int(number) for number in numbers])
    if graph:
        yield graph


def main():
    words = words_of(__doc__)
    words.add_argument('--graphs', type=int, default=1000)
    asked = words.parse_args()
    with folder_for('matched_speed', asked.keep) as folder:
        program = build(folder, 'matched_speed', LIBRARIES, ['make', '1', '1', '0', '0', '0'])
        text, _, _ = run(program, ['print', asked.graphs, 0, 0, 0, 0])
        made = list(graphs(text))
        edges = sum(len(graph.pairs[word]) for graph in made for word in ('ordinary', 'sp', 'control'))
        print(f'Of {len(made)} small graphs with {edges} edges and pairs of control {sum(g.is_as_told() for g in made)} are as the search tells.', flush=True)
        print('| | task | result | seconds | MiB |')
        print('|---|---|---|---|---|')
        for name, shape in SHAPES.items():
            _, least_made, _ = least(program, ['make', *shape], asked.times)
            for task in ('edges', 'matched'):
                text, seconds, memory = least(program, [task, *shape], asked.times)
                print(f'| {name} | {task} | {text} | {max(0, seconds - least_made):.2f} | {memory} |', flush=True)


if __name__ == '__main__':
    main()
