#!/usr/bin/env python3
"""Compares the program with slow, plain definitions on graphs that are cut from the texts of a seed: check_made.py [PROGRAM].

Of the graph file of each seed the lines are taken whose subject has a small or a large number, and of the script the first steps,
with the three queries through each index. Before and after the steps all indexes are listed, with their sizes. What the program writes,
and its exit status, must be what the definitions in check_by_definition.py give of the graph as it is then, and all answers to a query
must be the same nodes. The first output that is wrong ends the tool with the status 1.

Before that the facts in crates/pathindex_main/stdout, which the program writes for the seed 1, are compared with those of the whole texts
of that seed. They are found in Python alone, by keys of nodes instead of pairs: the classes of each index are refined until they stay, and
walks are followed from node to node. With no PROGRAM that is all. Else the program is asked over its whole graph file too, after the first 40
changes, and the nodes of each answer are compared.
"""
import pathlib
import re
import subprocess
import sys
import tempfile

from check_by_definition import (
    Graph, Moves, Output, answers, branch_answers, classes, lists, lists_one, loosened, longest, pairs_of, related_in, relaxed, sizes_one,
    writes,
)
from workload import Draws, graph_file, script

MADE = pathlib.Path(__file__).resolve().parent.parent / "crates/pathindex_main/stdout"
SEEDS = [1, 2, 18446744073709551615]
# of a script the first changes, the last lines, which write sizes and ask each query through each of these, and the lines of the sizes
FIRST, ASKED, SIZES = 40, 13, 6
INDEXES = ["data", "a2", "one", "fb"]
# subjects below the one number or from the other on are kept, of 4,000
SMALL, LARGE = 7, 3994
# lines of the script that are kept, four for each of its steps
LINES = 40
LEVELS = range(3)

P0, P1 = "<http://e/p0>", "<http://e/p1>"
PATHS = [
    (f"{P0}/iri/{P1}", ("child", ("child", ("label", P0), ("label", "iri")), ("label", P1))),
    ("g0//literal", ("below", ("label", "g0"), ("label", "literal"))),
]
BRANCH = f"iri[/{P0} and not(/{P1})]"
BRANCH_TREE = (("iri", [("and", ("rel", [("/", (P0, []))]), ("not", ("rel", [("/", (P1, []))])))]), [])


def is_kept(line):
    subject = int(re.match(r"<http://e/s(\d+)>", line).group(1))
    return subject < SMALL or subject >= LARGE


class Loaded(Graph):
    """The graph of some triples: of each new one its subject, the triple and its object are nodes, each once."""

    def __init__(self, lines):
        super().__init__()
        self.numbers = {}
        self.moves = Moves()
        for line in dict.fromkeys(lines):
            subject, predicate, thing = line.removesuffix(" .").split(" ")
            ends = self.number(subject, "iri"), self.number(line, predicate)
            self.edges |= {ends, (ends[1], self.number(thing, "iri" if thing.startswith("<") else "literal"))}

    def number(self, term, label):
        if term not in self.numbers:
            self.numbers[term] = len(self.labels)
            self.labels.append(label)
        return self.numbers[term]

    def list_one(self):
        """The test of a list of the 1-index at this place."""
        moves, self.moves = self.moves, Moves()
        return lists_one(self.copy(), moves)

    def change(self, line):
        """Makes the change of a line of the script, and gives the test of what is written."""
        command, *words = line.split()
        if command == "node":
            self.labels.append(words[0])
            self.moves.add(self, {len(self.labels) - 1})
            return writes(f"added n{len(self.labels) - 1}")
        edge = tuple(int(word[1:]) for word in words)
        had = edge in self.edges
        if command == "unlink" and not had:
            return writes("refused no-edge")
        (self.edges.add if command == "link" else self.edges.discard)(edge)
        if had != (command == "link"):
            self.moves.add(self, {edge[1]}, edge)
        return writes("ok")


def listed(graph):
    """The lines that list all indexes, each with its test."""
    for i in LEVELS:
        yield f"extents a{i}", lists(graph, classes(graph, related_in(graph, "a", i)))
    yield "extents one", graph.list_one()
    yield "extents fb", lists(graph, classes(graph, related_in(graph, "fb", None)))
    yield "sizes", sized(graph.copy())


def sized(graph):
    """The test of the sizes, right behind a list of the 1-index."""
    def line(name, blocks):
        return writes(f"{name} blocks {len(blocks)} edges {pairs_of(graph, blocks)}")
    tests = [writes(f"nodes {len(graph.live())} edges {len(graph.edges)}")]
    tests += [line(f"a{i}", classes(graph, related_in(graph, "a", i))) for i in LEVELS]
    tests += [sizes_one(graph), line("fb", classes(graph, related_in(graph, "fb", None)))]
    return lambda output: next(filter(None, (test(output) for test in tests)), None)


def answered(found, candidates=None, how=""):
    """The test of an answer of these nodes."""
    nodes = [" ".join(f"n{n}" for n in found)] if found else []
    return writes(f"answers {len(found)}" + ("" if candidates is None else f" candidates {len(candidates)} {how}"), *nodes)


def asked(graph):
    """The queries through each index, each with its test. Where the graph has no rings the 1-index is full bisimilarity."""
    near, full = related_in(graph, "a", LEVELS[-1]), related_in(graph, "a", None)
    for text, tree in PATHS:
        found = answers(graph, graph.edges, tree)
        exact = longest(tree) <= LEVELS[-1] + 1
        yield f"path data {text}", answered(found)
        yield f"path a2 {text}", answered(found, found if exact else answers(graph, loosened(graph, near), tree), "exact" if exact else "checked")
        yield f"path one {text}", answered(found, found, "exact")
        yield f"path fb {text}", answered(found, found, "exact")
    found = branch_answers(graph, graph.edges, BRANCH_TREE)
    yield f"branch data {BRANCH}", answered(found)
    for word, related in [("a2", near), ("one", full)]:
        yield f"branch {word} {BRANCH}", answered(found, branch_answers(graph, loosened(graph, related), relaxed(BRANCH_TREE)), "checked")
    yield f"branch fb {BRANCH}", answered(found, found, "exact")


def check(program, seed):
    """The number of nodes, where the program writes what the definitions give."""
    draws = Draws(seed)
    triples = [line for line in graph_file(draws) if is_kept(line)]
    graph = Loaded(triples)
    rows = list(listed(graph))
    for line in list(script(draws, len(graph.labels)))[:LINES]:
        rows.append((line, graph.change(line)))
    rows += list(listed(graph)) + list(asked(graph))
    written, status = run(program, triples, [line for line, _ in rows])
    output = Output(written)
    for line, test in rows:
        fault = test(output)
        if fault:
            sys.exit(f"seed {seed}, at {line!r}: {fault}")
    if output.at != len(output.lines):
        sys.exit(f"seed {seed}: more is written")
    wanted = 1 if any(line.startswith("refused") for line in output.lines) else 0
    if status != wanted:
        sys.exit(f"seed {seed}: wanted the status {wanted}, got {status}")
    return len(graph.labels)


class Whole:
    """The graph of the whole texts of a seed, or of the graph file and the first lines of the script. Partitions are lists of numbers of
    blocks, by node."""

    def __init__(self, seed, first=None):
        draws = Draws(seed)
        self.triples = list(graph_file(draws))
        graph = Loaded(self.triples)
        self.labels, self.edges = graph.labels, graph.edges
        self.lines = list(script(draws, len(graph.labels)))
        for line in self.lines[:first]:
            self.change(*line.split(" ", 1))
        self.parents, self.children = [[] for _ in self.labels], [[] for _ in self.labels]
        for u, v in self.edges:
            self.parents[v].append(u)
            self.children[u].append(v)

    def change(self, command, words=""):
        if command == "node":
            self.labels.append(words)
        elif command in ("link", "unlink"):
            change = self.edges.add if command == "link" else self.edges.discard
            change(tuple(int(word[1:]) for word in words.split()))

    def refined(self, blocks, sides):
        """One step of refinement by the blocks of these neighbours."""
        numbers = {}
        keys = ((block, *(frozenset(blocks[n] for n in side[node]) for side in sides)) for node, block in enumerate(blocks))
        return [numbers.setdefault(key, len(numbers)) for key in keys]

    def partition(self, sides, steps):
        """Nodes of one label, refined so many times or until no block is split."""
        numbers = {}
        blocks = [numbers.setdefault(label, len(numbers)) for label in self.labels]
        while steps > 0:
            blocks, before = self.refined(blocks, sides), blocks
            steps = steps - 1 if max(blocks) > max(before) else 0
        return blocks

    def index(self, blocks):
        """The graph of the blocks."""
        index = Whole.__new__(Whole)
        index.labels = [label for _, label in sorted(set(zip(blocks, self.labels)))]
        index.edges = {(blocks[u], blocks[v]) for u, v in self.edges}
        index.children = [[] for _ in index.labels]
        for u, v in index.edges:
            index.children[u].append(v)
        return index

    def labelled(self, label):
        return {n for n, other in enumerate(self.labels) if other == label}

    def over(self, nodes):
        return {child for n in nodes for child in self.children[n]}

    def below(self, nodes):
        found, waiting = set(), list(nodes)
        while waiting:
            new = set(self.children[waiting.pop()]) - found
            found |= new
            waiting += new
        return found

    def leading(self, label, nodes):
        """The nodes of this label with a child among these."""
        return {n for n in self.labelled(label) if not nodes.isdisjoint(self.children[n])}

    def found(self, relaxed):
        """The nodes that each of the three queries finds. Where it is relaxed nothing is left out by a `not`."""
        middle = self.over(self.labelled(P0)) & self.labelled("iri")
        branching = self.leading("iri", self.labelled(P0))
        return [
            self.over(middle) & self.labelled(P1),
            self.below(self.labelled("g0")) & self.labelled("literal"),
            branching if relaxed else branching - self.leading("iri", self.labelled(P1)),
        ]


def made(seed):
    """The lines that the run of the seed writes."""
    graph = Whole(seed)
    up, both = [graph.parents], [graph.parents, graph.children]
    blocks = {f"a{i}": graph.partition(up, i) for i in LEVELS}
    blocks |= {"one": graph.partition(up, len(graph.labels)), "fb": graph.partition(both, len(graph.labels))}
    yield f"nodes {len(graph.labels)} edges {len(graph.edges)}"
    offered = {}
    for name, of in blocks.items():
        index = graph.index(of)
        yield f"{name} blocks {len(index.labels)} edges {len(index.edges)}"
        sizes = [0] * len(index.labels)
        for block in of:
            sizes[block] += 1
        offered[name] = [sum(sizes[block] for block in found) for found in index.found(True)]
    answers = [len(found) for found in graph.found(False)]
    exact = {"a2": [True, False, False], "one": [True, True, False], "fb": [True, True, True]}
    for i, count in enumerate(answers):
        yield f"answers {count}"
        for name, rows in exact.items():
            yield f"answers {count} candidates {count if rows[i] else offered[name][i]} {'exact' if rows[i] else 'checked'}"


def run(program, triples, lines):
    """What the program writes for a graph file of these lines and a script of those, and its exit status."""
    with tempfile.NamedTemporaryFile("w") as graph_text, tempfile.NamedTemporaryFile("w") as script_text:
        graph_text.write("".join(line + "\n" for line in triples))
        script_text.write("".join(line + "\n" for line in lines))
        graph_text.flush(), script_text.flush()
        done = subprocess.run([program, script_text.name, "--graph", graph_text.name], capture_output=True, text=True)
    return done.stdout, done.returncode


def compare_ends(program, seed):
    """Has the program ask over the whole graph file and the first changes, and compares the nodes of each answer."""
    graph = Whole(seed, FIRST)
    written, _ = run(program, graph.triples, graph.lines[:FIRST] + graph.lines[-ASKED:])
    lines = iter(written.splitlines()[FIRST + SIZES:])
    for found in graph.found(False):
        nodes = " ".join(f"n{n}" for n in sorted(found))
        for word in INDEXES:
            if not next(lines).startswith(f"answers {len(found)}") or next(lines) != nodes:
                sys.exit(f"seed {seed}: an answer through {word} isn't {nodes!r}")
    if next(lines, None) is not None:
        sys.exit(f"seed {seed}: more is written")
    print(f"ok: seed {seed}, the nodes of {ASKED - 1} answers over the whole graph file")


def compare_made():
    wanted, stored = list(made(SEEDS[0])), MADE.read_text().splitlines()
    for line, other in zip(wanted, stored):
        if line != other:
            sys.exit(f"{MADE.name}: wanted {line!r}, stored {other!r}")
    if len(wanted) != len(stored):
        sys.exit(f"{MADE.name}: wanted {len(wanted)} lines, stored {len(stored)}")
    print(f"ok: {len(stored)} lines of {MADE.name}")


def main():
    if len(sys.argv) > 2:
        sys.exit(__doc__)
    compare_made()
    if len(sys.argv) == 1:
        return
    compare_ends(sys.argv[1], SEEDS[0])
    for seed in SEEDS:
        print(f"ok: seed {seed}, {check(sys.argv[1], seed)} nodes")


if __name__ == "__main__":
    main()
