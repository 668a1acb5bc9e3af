#!/usr/bin/env python3
"""Writes a generated script to standard output: make_script.py KIND COUNT. Its first lines forget the A(k)-index and the
1-index, so that what is measured is the graph alone.

nodes   COUNT nodes over 1,000 labels
links   4,000 nodes, and then COUNT links between random ones
paths   a layered graph of 20,000 nodes and 40,000 links, and then COUNT queries of three labels
graph   COUNT nodes over 8 labels of one letter, and then two links for each node
turns   4,000 nodes, and COUNT changes in turns of 1,000 links and 1,000 unlinks of the same edges
hub     one node, COUNT others that lead to it, and then those edges and nodes taken away one by one
"""
import random
import sys

LABELS = 1000
LINKED_NODES = 4000
LAYERS = 20
LAYER_NODES = 1000
LETTERS = "abcdefgh"
TURN = 1000
SEED = 20


def nodes(count):
    for i in range(count):
        yield f"node label{i % LABELS}\n"


def links(count):
    pick = random.Random(SEED).randrange
    yield from nodes(LINKED_NODES)
    for _ in range(count):
        yield f"link n{pick(LINKED_NODES)} n{pick(LINKED_NODES)}\n"


def paths(count):
    """Each node has two children in the next layer, and those of the last layer in the first."""
    pick = random.Random(SEED).randrange
    total = LAYERS * LAYER_NODES
    for i in range(total):
        yield f"node layer{i // LAYER_NODES}\n"
    for i in range(total):
        begin = (i // LAYER_NODES + 1) * LAYER_NODES % total
        first = pick(LAYER_NODES)
        second = (first + 1 + pick(LAYER_NODES - 1)) % LAYER_NODES
        yield f"link n{i} n{begin + first}\n"
        yield f"link n{i} n{begin + second}\n"
    for i in range(count):
        layers = [(i + step) % LAYERS for step in range(3)]
        yield "path data " + "/".join(f"layer{layer}" for layer in layers) + "\n"


def graph(count):
    """Each node leads to two random ones, so that some have many parents."""
    pick = random.Random(SEED).randrange
    for i in range(count):
        yield f"node {LETTERS[i % len(LETTERS)]}\n"
    for i in range(count):
        yield f"link n{i} n{pick(count)}\n"
        yield f"link n{i} n{pick(count)}\n"


def turns(count):
    """The edges of one turn begin at different nodes, so that each is linked once."""
    pick = random.Random(SEED).randrange
    yield from nodes(LINKED_NODES)
    for _ in range(count // (2 * TURN)):
        edges = [(i * 4 + pick(4), pick(LINKED_NODES)) for i in range(TURN)]
        for change in "link", "unlink":
            for source, target in edges:
                yield f"{change} n{source} n{target}\n"


def hub(count):
    """The edges are taken away in another order than that in which they came."""
    yield from nodes(1 + count)
    spokes = list(range(1, 1 + count))
    for spoke in spokes:
        yield f"link n{spoke} n0\n"
    random.Random(SEED).shuffle(spokes)
    for spoke in spokes:
        yield f"unlink n{spoke} n0\n"
        yield f"drop n{spoke}\n"


KINDS = {"nodes": nodes, "links": links, "paths": paths, "graph": graph, "turns": turns, "hub": hub}


def main():
    if len(sys.argv) != 3 or sys.argv[1] not in KINDS or not sys.argv[2].isdigit():
        sys.exit("usage: make_script.py " + "|".join(KINDS) + " COUNT")
    print("forget a\nforget one")
    sys.stdout.writelines(KINDS[sys.argv[1]](int(sys.argv[2])))


if __name__ == "__main__":
    main()
