#!/usr/bin/env python3
"""Draws the graph of a round, with a slice, a chop or a path marked.

Usage: draw_graph.py [--surf PATH] [--slice ADDR | --chop FROM TO | --why FROM TO] [--only] [--output FILE] IMAGE [OPTION..].
OPTION are words for surf, as --entry main or --lane 1. Without --output the text for graphviz goes to standard output; with a name
that ends in .svg or .png graphviz (`dot`) makes the picture. A box is an address, with all nodes that it has. Full arrows are
dependences by a place other than ESP, dotted ones by ESP, dashed ones by a branch. What is marked is grey; with --only the rest is
left out.
"""

import argparse
import json
import subprocess
import sys

from list_comparison import SURF

SLICE_STATUSES = (0, 1)


def arguments():
    parser = argparse.ArgumentParser(description=__doc__, formatter_class=argparse.RawDescriptionHelpFormatter)
    parser.add_argument("--surf", default=SURF, metavar="PATH", help="the program (default: surf of this repository)")
    marked = parser.add_mutually_exclusive_group()
    marked.add_argument("--slice", metavar="ADDR")
    marked.add_argument("--chop", nargs=2, metavar=("FROM", "TO"))
    marked.add_argument("--why", nargs=2, metavar=("FROM", "TO"))
    parser.add_argument("--only", action="store_true", help="leave out what isn't marked")
    parser.add_argument("--output", metavar="FILE", help="a file that ends in .dot, .svg or .png")
    parser.add_argument("image")
    known, options = parser.parse_known_args()
    return known, options


def answer(surf, words):
    """The lines that surf writes; where it refuses, this ends with its line and its status."""
    done = subprocess.run([surf, *words], capture_output=True, text=True)
    if done.returncode not in SLICE_STATUSES:
        print(done.stderr, end="", file=sys.stderr)
        sys.exit(done.returncode)
    return done.stdout.splitlines()


def question(given):
    """The words of what is to be marked, if anything."""
    if given.slice:
        return ["slice", given.image, "--at", given.slice]
    if given.chop:
        return ["chop", given.image, "--from", given.chop[0], "--at", given.chop[1]]
    if given.why:
        return ["why", given.image, "--from", given.why[0], "--at", given.why[1]]
    return None


def marked_addresses(lines):
    """The addresses between the first line of a reply and its last."""
    found = set()
    for line in lines[1:]:
        if line.startswith("end"):
            break
        found.add(int(line.split()[-1], 16))
    return found


def texts(surf, image, options, addresses):
    """The text of the instruction at each address."""
    found = {}
    for at in sorted(addresses):
        if at not in found:
            done = subprocess.run([surf, "list", image, "--at", f"{at:#x}", "--steps", "64", *options], capture_output=True, text=True)
            for line in done.stdout.splitlines()[:-1]:
                place, text = line.split(" ", 1)
                found.setdefault(int(place, 16), text)
    return found


def drawn(graph, named, marked, only):
    """The lines of a graph for graphviz."""
    places = [node["at"] for node in graph["nodes"]]
    shown = {at for at in places if not only or at in marked}
    yield "digraph surf {"
    yield '  node [shape=box, fontname=monospace, fontsize=10];'
    for at in sorted(shown):
        label = f"{at:08x}  {named.get(at, '')}".replace('"', "'")
        yield f'  n{at:08x} [label="{label}"{", style=filled, fillcolor=lightgrey" if at in marked else ""}];'
    for kind, style in (("edges", ""), ("sp", " [style=dotted]"), ("control", " [style=dashed]")):
        arrows = {(places[one], places[two]) for one, two in graph[kind]}
        for one, two in sorted(arrows):
            if one in shown and two in shown:
                yield f"  n{one:08x} -> n{two:08x}{style};"
    yield "}"


def main():
    given, options = arguments()
    graph = json.loads(answer(given.surf, ["graph", given.image, *options])[0])
    words = question(given)
    marked = marked_addresses(answer(given.surf, words + options)) if words else set()
    named = texts(given.surf, given.image, options, {node["at"] for node in graph["nodes"]})
    text = "\n".join(drawn(graph, named, marked, given.only)) + "\n"
    if given.output is None:
        print(text, end="")
    elif given.output.endswith(".dot"):
        with open(given.output, "w", encoding="utf-8") as file:
            file.write(text)
    else:
        subprocess.run(["dot", f"-T{given.output.rsplit('.', 1)[-1]}", "-o", given.output], input=text, text=True, check=True)


if __name__ == "__main__":
    main()
