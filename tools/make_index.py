#!/usr/bin/env python3
"""Makes an index file of its own: make_index.py FILE [K [NODE]] writes the graph of FILE, and of each index its view, with levels up to K
(2 if it isn't given). FILE is N-Triples in which each term has one spelling. The views are partitions that are worked out here, by rounds in
which those nodes stay together that have one label and neighbours in the same groups; `pathindex --check` must accept them. With NODE that
node is put into the group of another in the view `fb`, which is then wrong.
"""
import re
import sys

TRIPLE = re.compile(r'(<[^>]*>|_:\S+)[ \t]*(<[^>]*>)[ \t]*(<[^>]*>|_:\S+?|"(?:[^"\\]|\\.)*"(?:@[\w-]+|\^\^<[^>]*>)?)[ \t]*\.[ \t]*(?:#.*)?$')


def read_graph(name):
    """The labels of the nodes, and the edges: numbers go to what is needed first."""
    labels, edges, terms, triples = [], [], {}, set()

    def node(label):
        labels.append(label)
        return len(labels) - 1

    def term(text):
        if text not in terms:
            terms[text] = node({"<": "iri", "_": "blank", '"': "literal"}[text[0]])
        return terms[text]

    for line in open(name, encoding="utf-8"):
        found = TRIPLE.match(line.strip(" \t\r\n"))
        if found and found.groups() not in triples:
            triples.add(found.groups())
            first = term(found[1])
            middle = node(found[2])
            edges += [(first, middle), (middle, term(found[3]))]
    return labels, sorted(set(edges))


def numbered(keys):
    """Numbers for keys, from 0 on, by their first places."""
    numbers = {}
    return [numbers.setdefault(key, len(numbers)) for key in keys]


def rounds(labels, sides):
    """The partition by labels, and then each next one, until one is the same as that before it."""
    block = numbered(labels)
    while True:
        yield block
        after = numbered((block[n], *(tuple(sorted({block[m] for m in side[n]})) for side in sides)) for n in range(len(block)))
        if after == block:
            return
        block = after


def main(name, k=2, moved=None):
    labels, edges = read_graph(name)
    parents, children = [[] for _ in labels], [[] for _ in labels]
    for start, end in edges:
        parents[end].append(start)
        children[start].append(end)
    back, both = list(rounds(labels, [parents])), list(rounds(labels, [parents, children]))
    views = [(f"a{i}", back[min(i, len(back) - 1)]) for i in range(k + 1)] + [("one", back[-1]), ("fb", both[-1])]
    if moved is not None:
        other = next(rank for rank in both[-1] if rank != both[-1][moved])
        views[-1] = ("fb", numbered(other if n == moved else rank for n, rank in enumerate(both[-1])))
    views += [(f"b{i}", both[min(i, len(both) - 1)]) for i in range(k + 1)]
    lines = ["pathindex 1", f"given {len(labels)} k {k}", *(f"live {label}" for label in labels), f"edges {len(edges)}"]
    lines += [*(f"{start} {end}" for start, end in edges), f"views {len(views)}"]
    for via, block in views:
        lines += [f"view {via}", *map(str, block)]
    print("\n".join(lines))


if __name__ == "__main__":
    main(sys.argv[1], *map(int, sys.argv[2:]))
