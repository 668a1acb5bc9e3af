#!/usr/bin/env python3
"""Compares the program with slow, plain definitions: check_by_definition.py PROGRAM [RUNS [changes | triples]].

Each run makes a small random script of changes, groups of changes, triples that come and go, queries, lists and sizes, which saves a file
at its end. Three of four begin with a graph file of random triples, whose terms the script spells in other ways too. With the word changes
it is of changes alone, and after each, from the first node on, all indexes that are kept are listed, up to level 3 at least; in some of
these runs, and in no others, a node gains many neighbours, one by one and in groups, and loses them so or at once, and these begin with the
empty graph. With the word triples it is of inserts and deletes alone. After the load, and after each of them, all indexes that are kept are
listed and counted, and the walk of each present triple is checked with its labels. Then the program loads a file of the present triples, in
another order, and must give the same lists, sizes and walks but for the numbers. Where walks come back to their beginning that leaves out
the 1-index, which may have more blocks after changes. At the end it is printed how many changes, walks, edits and loads there were.

What the program writes must be what the definitions below give, which work on pairs of nodes and know neither splitting of blocks nor
automata nor sets that spread along an axis. Where walks come back to their beginning several partitions of the 1-index are lawful, so of
that which the program lists the demands are tested: it is stable, no two blocks can be merged, and since it was last listed nodes that no
change reaches are together as before. The first script whose output is wrong is printed with it, and the exit status is 1.
"""
import functools
import math
import os
import random
import subprocess
import sys
import tempfile

LABELS = "abc"
XSD_STRING = "<http://www.w3.org/2001/XMLSchema#string>"
LONG = "long " * 1000
# the spellings of each term; an IRI comes first as it is spelled in labels
SPELLINGS = {spellings[0]: spellings for spellings in (
    ("<a>", r"<\u0061>", r"<\U00000061>"),
    ("<http://e/é>", r"<http://e/\u00E9>", r"<http://e/\U000000e9>"),
    (r"<\u0020>", r"<\U00000020>"),
    ("<p>", r"<\u0070>"),
    ("_:b",),
    ("_:B.0",),
    ('"a"', r'"\u0061"', f'"a"^^{XSD_STRING}', rf'"\U00000061" ^^ {XSD_STRING[:-2]}\u0067>'),
    ('"a"^^<a>', r'"a" ^^ <\u0061>'),
    ('"a"^^<http://www.w3.org/1999/02/22-rdf-syntax-ns#langString>',),
    ('"a"@en', '"a"@EN', r'"\u0061" @eN'),
    ('"a"@en-gb', '"a"@EN-gb', '"a"@en-GB'),
    (r'"\t\b\n\r\f\"\'\\"', '"\t\b\\n\\r\f\\"\'\\\\"', r'"\u0009\u0008\u000A\u000d\u000C\u0022\U00000027\u005C"'),
    (f'"{LONG}a"', rf'"{LONG}\u0061"'),
    (f'"{LONG}b"', rf'"\u006C{LONG[1:]}b"'),
)}
IRIS = [term for term in SPELLINGS if term[0] == "<"]
BLANKS = [term for term in SPELLINGS if term[0] == "_"]
LITERALS = [term for term in SPELLINGS if term[0] == '"']
NODES = 7
LINKS = 9
LINES = 60
LOADED = 6  # the most lines of a graph file
GROUP = 8  # the most steps of a group
HUB_RUNS = 4  # of so many runs of changes one has a hub
SPOKES = 20, 40
# the bounds of k, in runs of changes and in the others
CHANGES_K = 3, 5
QUERIES_K = 0, 4
RUNS = 300


class Graph:
    """Labels by number, None where the node is gone, and edges as pairs of numbers."""

    def __init__(self):
        self.labels = []
        self.edges = set()

    def live(self):
        return [n for n, label in enumerate(self.labels) if label is not None]

    def is_live(self, node):
        return node < len(self.labels) and self.labels[node] is not None

    def parents(self, node):
        return [u for u, v in self.edges if v == node]

    def children(self, node):
        return [v for u, v in self.edges if u == node]

    def copy(self):
        other = Graph()
        other.labels, other.edges = list(self.labels), set(self.edges)
        return other


def refined(graph, related, sides):
    """The pairs that stay related when on each side each neighbour must have a partner."""
    tables = [{n: side(n) for n in graph.live()} for side in sides]

    def partners(table, u, v):
        return all(any((p, q) in related for q in table[v]) for p in table[u])
    return {(u, v) for u, v in related if all(partners(t, u, v) and partners(t, v, u) for t in tables)}


@functools.lru_cache(maxsize=8)
def levels(labels, edges, is_both_ways):
    """The pairs of nodes that are bisimilar to level 0, 1 and so on, up to the level that all further ones repeat: labels agree, and below
    it each parent has a partner, and each child too if both ways are looked."""
    graph = Graph()
    graph.labels, graph.edges = labels, edges
    live, sides = graph.live(), [graph.parents, graph.children] if is_both_ways else [graph.parents]
    result = [{(u, v) for u in live for v in live if labels[u] == labels[v]}]
    while True:
        related = refined(graph, result[-1], sides)
        if related == result[-1]:
            return result
        result.append(related)


def related_in(graph, word, i):
    """The pairs of nodes that share a block of this index, which isn't the 1-index."""
    result = levels(tuple(graph.labels), frozenset(graph.edges), word[0] != "a")
    return result[-1 if i is None else min(i, len(result) - 1)]


def classes(graph, related):
    """The classes of a relation, by rising least members."""
    return [
        [v for v in graph.live() if (u, v) in related]
        for u in graph.live() if all(v >= u for v in graph.live() if (u, v) in related)
    ]


def pairs_of(graph, blocks):
    """The number of pairs of blocks with an edge from the one to the other."""
    return sum(any((u, v) in graph.edges for u in b for v in c) for b in blocks for c in blocks)


def has_ring(graph):
    left = set(graph.live())
    while True:
        ends = {n for n in left if not any(p in left for p in graph.parents(n))}
        if not ends:
            return bool(left)
        left -= ends


def fault_of_one(graph, blocks):
    """What these blocks lack as a partition of the 1-index, None where they lack nothing."""
    if sorted(n for b in blocks for n in b) != graph.live():
        return "not each live node in one block"
    block_of = {n: i for i, b in enumerate(blocks) for n in b}

    def key(n, merged=()):
        return graph.labels[n], frozenset(-1 if block_of[p] in merged else block_of[p] for p in graph.parents(n))
    if any(key(n) != key(b[0]) for b in blocks for n in b):
        return "not stable"
    if any(key(b[0], (i, j)) == key(c[0], (i, j)) for i, b in enumerate(blocks) for j, c in enumerate(blocks) if i < j):
        return "two blocks can be merged"
    if not has_ring(graph) and len(blocks) != len(classes(graph, related_in(graph, "a", None))):
        return "not full bisimilarity"
    return None


# Steps of a change: ("node", label), ("link", u, v), ("unlink", u, v), ("drop", u), ("relabel", u, label).

def refusal(graph, step):
    """The word with which a step is refused, None where it is accepted."""
    if step[0] == "node":
        return None
    if not all(graph.is_live(part) for part in step[1:] if not isinstance(part, str)):
        return "no-node"
    return "no-edge" if step[0] == "unlink" and step[1:] not in graph.edges else None


def is_idle(graph, step):
    if step[0] == "relabel":
        return graph.labels[step[1]] == step[2]
    return step[0] == "link" and step[1:] in graph.edges


def make(graph, step):
    """Makes an accepted step, and gives the nodes at which it alters the graph."""
    if step[0] == "node":
        graph.labels.append(step[1])
        return {len(graph.labels) - 1}
    if step[0] == "drop":
        children = set(graph.children(step[1]))
        graph.labels[step[1]] = None
        graph.edges = {edge for edge in graph.edges if step[1] not in edge}
        return children
    if step[0] == "relabel":
        altered = set() if is_idle(graph, step) else {step[1]}
        graph.labels[step[1]] = step[2]
        return altered
    altered = set() if is_idle(graph, step) else {step[2]}
    if step[0] == "link":
        graph.edges.add(step[1:])
    else:
        graph.edges.remove(step[1:])
    return altered


def label_of(term):
    return {"<": "iri", "_": "blank", '"': "literal"}[term[0]]


def there(graph, names, item):
    """The node of a term or of a triple, where it is live."""
    node = names.get(item)
    return node if node is not None and graph.is_live(node) else None


def insertion(graph, names, triple):
    """The steps that insert a triple, and the numbers that its parts have then."""
    subject, predicate, object_ = triple
    given, steps = {}, []
    for item, label in (subject, label_of(subject)), (triple, predicate), (object_, label_of(object_)):
        if item not in given:
            given[item] = there(graph, names, item)
            if given[item] is None:
                given[item] = len(graph.labels) + len(steps)
                steps.append(("node", label))
    return steps + [("link", given[subject], given[triple]), ("link", given[triple], given[object_])], given


def load(triples):
    """The graph of these triples, and the numbers of their parts."""
    graph, names = Graph(), {}
    for triple in triples:
        steps, given = insertion(graph, names, triple)
        for step in steps:
            make(graph, step)
        names |= given
    return graph, names


def spelled_triple(pick, triple):
    """A line of N-Triples, each part in some spelling."""
    between = pick.choice(["", " ", "\t "])
    return between.join([pick.choice(SPELLINGS[part]) for part in triple] + [pick.choice([".", ". # again"])])


def is_load(graph, names, present):
    """Whether the graph has a node for each term and each of these triples, by the numbers, two edges for each triple, and nothing else."""
    labels, edges = {}, set()
    for triple in present:
        subject, predicate, object_ = triple
        labels |= {names[subject]: label_of(subject), names[triple]: predicate, names[object_]: label_of(object_)}
        edges |= {(names[subject], names[triple]), (names[triple], names[object_])}
    items = {item for triple in present for item in (triple[0], triple, triple[2])}
    return len(labels) == len(items) and graph.edges == edges and labels == {n: graph.labels[n] for n in graph.live()}


def spelled_step_of_change(step):
    return " ".join([step[0]] + [part if isinstance(part, str) else f"n{part}" for part in step[1:]])


def reached(graph, nodes):
    """The nodes to which a walk leads from one of these, they among them."""
    found, waiting = set(nodes), list(nodes)
    while waiting:
        for child in graph.children(waiting.pop()):
            if child not in found:
                found.add(child)
                waiting.append(child)
    return found


class Moves:
    """The changes since the 1-index was last listed: the nodes that they reach, and the edge of each that only adds or takes one."""

    def __init__(self):
        self.reached = set()
        self.edges = []

    def add(self, graph, targets, edge=None):
        self.reached |= reached(graph, targets)
        self.edges.append(edge)

    def fault(self, graph, before, blocks):
        """What is wrong with these blocks as those that come after the ones before, None where nothing is."""
        was, is_now = ({n: i for i, b in enumerate(bs) for n in b} for bs in (before, blocks))
        kept = [n for n in was if n in is_now and (n not in self.reached or self.keep_parents(graph, was))]
        if any((was[u] == was[v]) != (is_now[u] == is_now[v]) for u in kept for v in kept):
            return "nodes that no change reaches are not together as before"
        return None

    def keep_parents(self, graph, was):
        """Whether there was one change, of an edge, which gave its end no parent block and took none."""
        if len(self.edges) != 1 or self.edges[0] is None:
            return not self.edges
        u, v = self.edges[0]
        return any(p != u and was[p] == was[u] for p in graph.parents(v))


def loosened(graph, related):
    """An edge for each two nodes that are related to the ends of one."""
    live = graph.live()
    return {(x, y) for x in live for y in live for u, v in graph.edges if (x, u) in related and (y, v) in related}


# Expressions: ("label", text), ("any",), ("star", e), ("plus", e), ("opt", e), ("child", d, e), ("below", d, e), ("or", d, e).
# A meaning is whether the empty word matches, and the least of the walks whose words match, for each pair of their ends.

def length_first(walk):
    return len(walk), walk


def least_walks(walks):
    """The least of these walks for each pair of ends."""
    least = {}
    for walk in walks:
        ends = walk[0], walk[-1]
        least[ends] = min(least.get(ends, walk), walk, key=length_first)
    return least


def joined(edges, front, back):
    """The parts of a least walk are least walks, since their ends are its own and those of an edge."""
    walks = [a + b for (_, u), a in front[1].items() for (v, _), b in back[1].items() if (u, v) in edges]
    walks += front[1].values() if back[0] else []
    walks += back[1].values() if front[0] else []
    return front[0] and back[0], least_walks(walks)


def repeated(edges, meaning):
    result = (True, {})
    while True:
        longer = either(result, joined(edges, result, meaning))
        if longer == result:
            return result
        result = longer


def either(one, other):
    return one[0] or other[0], least_walks([*one[1].values(), *other[1].values()])


def meaning(graph, edges, e):
    def of(part):
        return meaning(graph, edges, part)
    if e[0] == "label":
        return False, {(n, n): (n,) for n in graph.live() if graph.labels[n] == e[1]}
    if e[0] == "any":
        return False, {(n, n): (n,) for n in graph.live()}
    if e[0] == "star":
        return repeated(edges, of(e[1]))
    if e[0] == "plus":
        return joined(edges, of(e[1]), repeated(edges, of(e[1])))
    if e[0] == "opt":
        return True, of(e[1])[1]
    if e[0] == "or":
        return either(of(e[1]), of(e[2]))
    between = (True, {}) if e[0] == "child" else repeated(edges, of(("any",)))
    return joined(edges, joined(edges, of(e[1]), between), of(e[2]))


@functools.cache
def matches(e, word):
    """Whether the list of labels is a word of the expression."""
    if e[0] == "label":
        return word == (e[1],)
    if e[0] == "any":
        return len(word) == 1
    if e[0] == "opt":
        return not word or matches(e[1], word)
    if e[0] == "or":
        return matches(e[1], word) or matches(e[2], word)
    places = range(len(word) + 1)
    if e[0] == "star":
        return not word or any(matches(e[1], word[:i]) and matches(e, word[i:]) for i in places[1:])
    if e[0] == "plus":
        return any(matches(e[1], word[:i]) and matches(("star", e[1]), word[i:]) for i in places)
    return any(
        matches(e[1], word[:i]) and matches(e[2], word[j:])
        for i in places for j in places if (i == j if e[0] == "child" else i <= j)
    )


def is_shown(graph, e, nodes):
    """Whether the nodes are a walk of the graph whose word matches."""
    are_linked = all(map(graph.is_live, nodes)) and all(edge in graph.edges for edge in zip(nodes, nodes[1:]))
    return are_linked and matches(e, tuple(graph.labels[n] for n in nodes))


def least_walk(graph, e, node):
    """The least walk that ends in the node and whose word matches, if there is one."""
    walks = [walk for walk in meaning(graph, graph.edges, e)[1].values() if walk[-1] == node]
    return min(walks, key=length_first, default=None)


def answers(graph, edges, e):
    return sorted({v for _, v in meaning(graph, edges, e)[1]})


def longest(e):
    """The number of labels of the longest word, infinity where there is none."""
    if e[0] in ("label", "any"):
        return 1
    if e[0] == "opt":
        return longest(e[1])
    if e[0] == "or":
        return max(longest(e[1]), longest(e[2]))
    if e[0] == "child":
        return longest(e[1]) + longest(e[2])
    return float("inf")


def spelled(e):
    if e[0] == "label":
        return e[1]
    if e[0] == "any":
        return "_"
    if e[0] in ("star", "plus", "opt"):
        return "(" + spelled(e[1]) + ")" + {"star": "*", "plus": "+", "opt": "?"}[e[0]]
    sign = {"child": "/", "below": "//", "or": "|"}[e[0]]
    return "(" + spelled(e[1]) + ")" + sign + "(" + spelled(e[2]) + ")"


def expression(pick, depth):
    sort = pick.choice(["label", "label", "any"] if depth == 0 else ["label", "child", "child", "below", "or", "star", "plus", "opt"])
    if sort == "label":
        return sort, pick.choice(LABELS)
    if sort == "any":
        return (sort,)
    if sort in ("star", "plus", "opt"):
        return sort, expression(pick, depth - 1)
    return sort, expression(pick, depth - 1), expression(pick, depth - 1)


# Branching queries: a step and a chain, which is a list of pairs of an axis and a step. A step is a label, or _, and its predicates:
# ("rel", chain), ("not", p), ("group", p), ("and", p, q), ("or", p, q), and ("always",), which is never spelled.

@functools.lru_cache(maxsize=8)
def steps_along(edges, axis):
    """The pairs of nodes such that the axis leads from the one to the other."""
    related = set(edges)
    while len(axis) == 2:
        longer = related | {(u, w) for u, v in related for x, w in edges if x == v}
        if longer == related:
            break
        related = longer
    return {(v, u) for u, v in related} if axis[0] == "\\" else related


def meets(graph, edges, step, node):
    label, predicates = step
    return label in ("_", graph.labels[node]) and all(holds(graph, edges, p, node) for p in predicates)


def ends(graph, edges, chain, nodes):
    """The nodes to which the chain leads from some of these."""
    for axis, step in chain:
        pairs = steps_along(edges, axis)
        nodes = {v for u, v in pairs if u in nodes and meets(graph, edges, step, v)}
    return nodes


def holds(graph, edges, p, node):
    if p[0] == "rel":
        return bool(ends(graph, edges, p[1], {node}))
    if p[0] == "not":
        return not holds(graph, edges, p[1], node)
    if p[0] == "group":
        return holds(graph, edges, p[1], node)
    if p[0] == "and":
        return holds(graph, edges, p[1], node) and holds(graph, edges, p[2], node)
    if p[0] == "or":
        return holds(graph, edges, p[1], node) or holds(graph, edges, p[2], node)
    return True


def branch_answers(graph, edges, query):
    step, chain = query
    edges = frozenset(edges)
    return sorted(ends(graph, edges, chain, {n for n in graph.live() if meets(graph, edges, step, n)}))


def relaxed_chain(chain):
    return [(axis, relaxed_step(step)) for axis, step in chain]


def relaxed_step(step):
    return step[0], [relaxed_predicate(p) for p in step[1]]


def relaxed_predicate(p):
    if p[0] == "not":
        return ("always",)
    if p[0] == "rel":
        return "rel", relaxed_chain(p[1])
    return (p[0],) + tuple(relaxed_predicate(q) for q in p[1:])


def relaxed(query):
    return relaxed_step(query[0]), relaxed_chain(query[1])


def further(axis, depth):
    return depth + 1 if len(axis) == 1 else math.inf


def depth_of_predicate(p):
    """How many edges away the predicate looks."""
    if p[0] != "rel":
        return max(depth_of_predicate(q) for q in p[1:])
    depth = 0
    for axis, step in reversed(p[1]):
        depth = further(axis, max(depth, depth_of_step(step)))
    return depth


def depth_of_step(step):
    return max(map(depth_of_predicate, step[1]), default=0)


def depth_of_query(query):
    """How many edges away from its answers the query looks."""
    depth = depth_of_step(query[0])
    for axis, step in query[1]:
        depth = max(further(axis, depth), depth_of_step(step))
    return depth


def spelled_chain(chain):
    return "".join(axis + spelled_step(step) for axis, step in chain)


def spelled_step(step):
    return step[0] + "".join(f"[{spelled_predicate(p)}]" for p in step[1])


def spelled_predicate(p):
    if p[0] == "rel":
        return spelled_chain(p[1])
    if p[0] in ("not", "group"):
        return ("not" if p[0] == "not" else "") + f"({spelled_predicate(p[1])})"
    return f"{spelled_predicate(p[1])} {p[0]} {spelled_predicate(p[2])}"


def chain_of(pick, depth, least):
    return [(pick.choice(["/", "//", "\\", "\\\\"]), step_of(pick, depth)) for _ in range(pick.choice([least, 1, 1, 2]))]


def step_of(pick, depth):
    count = 0 if depth == 0 else pick.choice([0, 0, 1, 1, 2])
    return pick.choice(LABELS + "_"), [predicate(pick, depth - 1, ["or", "and", "unit"]) for _ in range(count)]


def predicate(pick, depth, sorts):
    """A predicate, in which an "or" stands in no "and" but in parentheses."""
    sort = pick.choice(sorts)
    if sort == "unit":
        sort = pick.choice(["rel", "rel", "not", "group"] if depth else ["rel"])
    if sort == "rel":
        return sort, chain_of(pick, depth, 1)
    if sort in ("not", "group"):
        return sort, predicate(pick, depth - 1, ["or", "and", "unit"])
    if sort == "and":
        return sort, predicate(pick, depth, ["unit"]), predicate(pick, depth, ["and", "unit"])
    return sort, predicate(pick, depth, ["and", "unit"]), predicate(pick, depth, ["or", "and", "unit"])


def branching_query(pick, depth):
    return step_of(pick, depth), chain_of(pick, depth, 0)


class Output:
    """What the program wrote, read line by line, and the blocks of the 1-index when they were last listed."""

    def __init__(self, text):
        self.lines = text.splitlines()
        self.at = 0
        self.one = []

    def next(self):
        self.at += 1
        return self.lines[self.at - 1] if self.at <= len(self.lines) else "(the end)"


def writes(*wanted):
    """The test that just these lines are written."""
    def test(output):
        for line in wanted:
            written = output.next()
            if written != line:
                return f"wanted {line!r}, written {written!r}"
        return None
    return test


def lists(graph, blocks):
    lines = [" ".join([graph.labels[b[0]]] + [f"n{n}" for n in b]) for b in blocks]
    return writes(f"blocks {len(blocks)}", *lines)


def lists_one(graph, moves):
    """The test that a lawful partition of the 1-index is listed, after these changes since the last list."""
    def test(output):
        head = output.next().split()
        if head[:1] != ["blocks"]:
            return f"wanted blocks, written {head}"
        rows = [output.next() for _ in range(int(head[1]))]
        before, output.one = output.one, [[int(word[1:]) for word in row.split()[1:]] for row in rows]
        fault = fault_of_one(graph, output.one) or moves.fault(graph, before, output.one)
        output.at -= len(rows) + 1
        return fault or lists(graph, output.one)(output)
    return test


def asks_one(graph, query, found, nodes):
    """The test of a branching query that is asked through the 1-index, as it was last listed."""
    def test(output):
        related = {(u, v) for block in output.one for u in block for v in block}
        candidates = branch_answers(graph, loosened(graph, related), relaxed(query))
        return writes(f"answers {len(found)} candidates {len(candidates)} checked", *nodes)(output)
    return test


def check_of(names, triple):
    """The line that checks the walk of a triple with its labels."""
    subject, predicate, object_ = triple
    walk = ",".join(f"n{names[item]}" for item in (subject, triple, object_))
    return f"check {walk} {label_of(subject)}/{predicate}/{label_of(object_)}"


def by_items(lines, names, triples):
    """These lines, with each list of blocks as a set of labels with the terms and triples that have these names."""
    items = {f"n{names[item]}": item for triple in triples for item in (triple[0], triple, triple[2])}
    result, lines = [], iter(lines)
    for line in lines:
        result.append(line)
        if line.startswith("blocks "):
            rows = [next(lines, "").split() for _ in range(int(line.split()[1]))]
            result.append({(*row[:1], frozenset(map(items.get, row[1:]))) for row in rows})
    return result


def sizes_one(graph):
    return lambda output: writes(f"one blocks {len(output.one)} edges {pairs_of(graph, output.one)}")(output)


def sizes_by_definition(graph, word, i):
    blocks = classes(graph, related_in(graph, word, i))
    return writes(f"{word} blocks {len(blocks)} edges {pairs_of(graph, blocks)}")


def ranks(graph, blocks):
    """The lines of a view: for each node the rank of its block, by least members."""
    rank = {n: str(i) for i, block in enumerate(blocks) for n in block}
    return [rank[n] for n in graph.live()]


def saves_graph(graph, k, views):
    return writes(
        "pathindex 1", f"given {len(graph.labels)} k {k}", *("gone" if label is None else f"live {label}" for label in graph.labels),
        f"edges {len(graph.edges)}", *(f"{u} {v}" for u, v in sorted(graph.edges)), f"views {views}")


def saves_one(graph):
    return lambda output: writes("view one", *ranks(graph, output.one))(output)


def saves_by_definition(graph, word, i):
    return writes(f"view {word}", *ranks(graph, classes(graph, related_in(graph, word, i))))


class Run:
    """A random script, and a test for what each of its lines writes."""

    def __init__(self, program, seed, sort):
        self.program = program
        self.pick = random.Random(seed)
        self.changes_alone = changes_alone = sort != ""
        self.triples_alone = sort == "triples"
        self.k = self.pick.randrange(*(CHANGES_K if changes_alone else QUERIES_K))
        self.kept = {"a", "one", "fb"} - {kind for kind in ("one", "fb") if self.pick.randrange(8) == 0}
        self.words = ["--k", str(self.k)] + [f"--without-{kind}" for kind in ("one", "fb") if kind not in self.kept]
        if self.pick.randrange(2):
            self.kept.add("b")
            self.words.append("--with-bk")
        self.graph = Graph()
        # the numbers of terms and triples, and the triples that were loaded or inserted, and not deleted
        self.names = {}
        self.present = set()
        # what triples are made of
        self.subjects = self.pick.sample(IRIS, 2) + [self.pick.choice(BLANKS)]
        self.predicates = self.pick.sample(IRIS, 2)
        self.objects = self.subjects + self.pick.sample(LITERALS, 2)
        self.may_have_rings = self.pick.randrange(8) < 5  # so that about half of the changes meet a ring
        self.moves = Moves()
        self.has_hub = sort == "changes" and self.pick.randrange(HUB_RUNS) == 0
        self.changes = 0
        # inserts and deletes, and the loads to which the graph is compared
        self.edits = 0
        self.loads = 0
        # the walks that are tried, and those of more than one node
        self.walks = [0, 0]
        # those after which the 1-index is listed, on acyclic graphs and on others
        self.ones = [0, 0]
        self.script = []
        self.tests = []
        # the lines of the graph file, where there is one
        self.file = None
        if not self.has_hub and self.pick.randrange(4):
            self.begin()
        if self.triples_alone:
            for _ in range(LINES):
                self.pick.choice([self.insert, self.insert, self.delete])()
                assert is_load(self.graph, self.names, self.present), self.script
            return
        for change in [self.node] * NODES + [self.link] * LINKS:
            change()
        if self.has_hub:
            self.hub()
            return
        changes = [self.node, self.link, self.link, self.link, self.unlink, self.unlink, self.drop, self.relabel, self.group, self.group, self.insert, self.insert, self.delete]
        asks = [self.path, self.path, self.why, self.why, self.branch, self.branch, self.extents, self.sizes]
        for _ in range(LINES):
            if changes_alone and self.may_have_rings and not has_ring(self.graph):
                self.close_ring()
            self.pick.choice(changes if changes_alone else changes + asks)()
            if not changes_alone and self.pick.randrange(LINES) == 0:
                kind = self.pick.choice(["a", "one", "fb", "b"])
                self.say(f"forget {kind}", writes("ok" if kind in self.kept else "refused no-index"))
                self.kept.discard(kind)
        if not changes_alone:
            self.save()

    def begin(self):
        """Begins with a graph file."""
        triples = []
        for _ in range(self.pick.randint(1, LOADED)):
            more = triples + [self.a_triple()]
            if self.may_have_rings or not has_ring(load(more)[0]):
                triples = more
        self.file = [spelled_triple(self.pick, triple) for triple in triples]
        self.graph, self.names = load(triples)
        self.present = set(triples)
        if self.changes_alone:
            self.list_all()

    def say(self, line, *tests):
        self.script.append(line)
        self.tests += tests

    def any_node(self, graph=None):
        return self.pick.randrange(len((graph or self.graph).labels) + 1)

    def change(self, *steps, is_group=False, line=None):
        """A change of these steps, which may be refused or change nothing, as a group or as this line; in a run of changes the lists follow it."""
        graph, altered, is_new, refused = self.graph.copy(), set(), False, None
        for step in steps:
            refused = refused or refusal(graph, step)
            if not refused:
                is_new = is_new or not is_idle(graph, step)
                altered |= make(graph, step)
        added = range(len(self.graph.labels), len(graph.labels))
        if is_new and not refused:
            self.graph = graph
            is_edge = len(steps) == 1 and steps[0][0] in ("link", "unlink")
            self.moved({n for n in altered if graph.is_live(n)}, steps[0][1:] if is_edge else None)
        reply = [f"refused {refused}"] if refused else [f"added n{n}" for n in added]
        lines = [spelled_step_of_change(step) for step in steps]
        if is_group:
            self.script += ["begin"] + lines
            self.say("end", writes(*reply if refused else reply + ["ok"]))
        elif line:
            self.say(line, writes(*reply if refused else reply + ["ok"]))
        else:
            self.say(lines[0], writes(*reply or ["ok"]))
        if self.changes_alone:
            self.list_all()

    def moved(self, targets, edge):
        """Notes a change that the graph has undergone."""
        self.changes += 1
        if self.changes_alone and "one" in self.kept:
            self.ones[has_ring(self.graph)] += 1
        self.moves.add(self.graph, targets, edge)

    def group(self):
        """Several steps, or none, of which most can be made where they stand."""
        graph, steps = self.graph.copy(), []
        for _ in range(self.pick.randrange(GROUP + 1)):
            kinds = [self.a_node, self.a_link, self.a_link, self.a_link, self.an_unlink, self.an_unlink, self.a_drop, self.a_relabel]
            step = self.pick.choice(kinds)(graph)
            if not refusal(graph, step):
                make(graph, step)
            elif self.pick.randrange(LINES):
                continue
            steps.append(step)
        self.change(*steps, is_group=True)

    def list_one(self):
        """The test of a list of the 1-index at this place."""
        moves, self.moves = self.moves, Moves()
        return lists_one(self.graph.copy(), moves)

    def list_all(self):
        """Lists all indexes, and in a run of triples counts them too, beside a load."""
        if self.triples_alone:
            self.compare()
            return
        if "one" in self.kept:
            self.say("extents one", self.list_one())
        self.list_levels(self.determined())

    def determined(self):
        """The indexes that are kept and that the graph alone determines: the word and the level of each."""
        return self.levels("a") + self.levels("b") + ([("fb", None)] if "fb" in self.kept else [])

    def list_levels(self, levels):
        for word, i in levels:
            self.say(f"extents {word}", lists(self.graph.copy(), classes(self.graph, related_in(self.graph, word, i))))

    def compare(self):
        """Lists and counts all that is kept, and checks the walk of each present triple; a load of these triples must give the same."""
        varies = "one" in self.kept and has_ring(self.graph)
        if varies:
            self.say("extents one", self.list_one())
        line, test = len(self.script), len(self.tests)
        if "one" in self.kept and not varies:
            self.say("extents one", self.list_one())
        self.count()
        self.list_levels(self.determined())
        asks, triples = self.script[line:], sorted(self.present)
        for triple in triples:
            self.say(check_of(self.names, triple), writes("yes"))
        self.tests[test:] = [self.is_as_loaded(self.tests[test:], asks, triples, varies)]
        self.loads += 1

    def is_as_loaded(self, tests, asks, triples, varies):
        """The test that these hold, and that a load of the triples answers the same; the 1-index is left out where it varies."""
        names, order = self.names.copy(), self.pick.sample(triples, len(triples))
        file = [spelled_triple(self.pick, triple) for triple in order]
        loaded = load(order)[1]
        asks = asks + [check_of(loaded, triple) for triple in triples]

        def test(output):
            at = output.at
            for each in tests:
                fault = each(output)
                if fault:
                    return fault
            edited = [line for line in output.lines[at:output.at] if not (varies and line.startswith("one "))]
            written, status = written_by(self.program, asks, file, self.words + ["--without-one"] * varies)
            if status != 0 or by_items(written.splitlines(), loaded, triples) != by_items(edited, names, triples):
                return f"not as after a load of\n{file}\nof which with status {status} is written\n{written}"
            return None
        return test

    def levels(self, kind):
        """The levels that are kept of this kind: the word and the number of each."""
        return [(f"{kind}{i}", i) for i in range(self.k + 1 if kind in self.kept else 0)]

    def a_node(self, graph):
        return "node", self.pick.choice(LABELS)

    def a_link(self, graph):
        edge = self.any_node(graph), self.any_node(graph)
        if not self.may_have_rings:
            edge = min(edge), max(edge[1], min(edge) + 1)
        return "link", *edge

    def an_unlink(self, graph):
        return "unlink", *self.pick.choice(sorted(graph.edges) + [(self.any_node(graph), self.any_node(graph))])

    def a_drop(self, graph):
        return "drop", self.any_node(graph)

    def a_relabel(self, graph):
        return "relabel", self.any_node(graph), self.pick.choice(LABELS)

    def a_triple(self):
        return self.pick.choice(self.subjects), self.pick.choice(self.predicates), self.pick.choice(self.objects)

    def insert(self):
        """Inserts a triple, unless that would make a ring where none may be."""
        triple = self.a_triple()
        steps, given = insertion(self.graph, self.names, triple)
        graph = self.graph.copy()
        for step in steps:
            make(graph, step)
        if self.may_have_rings or not has_ring(graph):
            self.edits += 1
            self.names |= given
            self.present.add(triple)
            self.change(*steps, line=f"insert {spelled_triple(self.pick, triple)}")

    def delete(self):
        """Deletes a triple, in most cases one that was inserted."""
        triple = self.pick.choice(sorted(self.present)) if self.present and self.pick.randrange(4) else self.a_triple()
        line, node = f"delete {spelled_triple(self.pick, triple)}", there(self.graph, self.names, triple)
        self.edits += 1
        self.present.discard(triple)
        if node is None:
            self.say(line, writes("refused no-node"))
            if self.changes_alone:
                self.list_all()
            return
        terms = [there(self.graph, self.names, term) for term in dict.fromkeys((triple[0], triple[2]))]
        alone = [n for n in terms if n is not None and set(self.graph.parents(n) + self.graph.children(n)) <= {node}]
        self.change(*[("drop", n) for n in [node] + alone], line=line)

    def node(self):
        self.change(self.a_node(self.graph))

    def link(self):
        self.change(self.a_link(self.graph))

    def unlink(self):
        self.change(self.an_unlink(self.graph))

    def drop(self):
        self.change(self.a_drop(self.graph))

    def relabel(self):
        self.change(self.a_relabel(self.graph))

    def add(self, label):
        self.change(("node", label))
        return len(self.graph.labels) - 1

    def close_ring(self):
        """Leads back along an edge, where there is one."""
        for u, v in self.pick.sample(sorted(self.graph.edges), min(1, len(self.graph.edges))):
            self.change(("link", v, u))

    def spokes(self):
        """Further nodes, of which about half have a label of their own."""
        return [self.add(self.pick.choice(LABELS) if self.pick.randrange(2) else f"s{i}") for i in range(self.pick.randint(*SPOKES) // 2)]

    def hub(self):
        """A node gains many parents and children, changes some of them, and loses all in another order or at once."""
        front, hub, back = self.spokes(), self.add(self.pick.choice(LABELS)), self.spokes()
        edges = [(n, hub) for n in front] + [(hub, n) for n in back]
        if self.may_have_rings:
            edges += [(v, u) for u, v in edges if self.pick.randrange(4) == 0]
        self.turn(self.pick.sample(edges, len(edges)), hub)
        self.turn(self.pick.choices(edges, k=len(edges) // 2), hub)
        left = [edge for edge in edges if edge in self.graph.edges]
        left = self.pick.sample(left, len(left))
        unlinks = [("unlink", *edge) for edge in left]
        ends = [
            lambda: self.turn(left, hub),
            lambda: self.change(*unlinks, is_group=True),
            lambda: self.change(("drop", hub)),
            lambda: self.change(*unlinks[::2], self.a_node(self.graph), ("link", front[0], len(self.graph.labels)), ("drop", hub), is_group=True),
        ]
        self.pick.choice(ends)()

    def turn(self, edges, hub):
        """Adds each edge, or takes it where it is there, one by one or some in a group, in which the hub may get another label."""
        while edges:
            count = self.pick.choice([1, self.pick.randint(2, GROUP)])
            graph, steps = self.graph.copy(), []
            for edge in edges[:count]:
                steps.append(("unlink" if edge in graph.edges else "link", *edge))
                make(graph, steps[-1])
            if count > 1 and self.pick.randrange(4) == 0:
                steps.insert(self.pick.randrange(len(steps) + 1), ("relabel", hub, self.pick.choice(LABELS)))
            self.change(*steps, is_group=count > 1)
            edges = edges[count:]

    def index(self):
        """The word of an index, and its level where it has one; the index may not be kept."""
        i = self.pick.randrange(self.k + 2)
        return self.pick.choice([(f"a{i}", i), (f"a{i}", i), (f"b{i}", i), ("one", None), ("fb", None)])

    def is_kept(self, word, i):
        return word in self.kept if i is None else word[0] in self.kept and i <= self.k

    def path(self):
        e = expression(self.pick, 3)
        found = answers(self.graph, self.graph.edges, e)
        nodes = [" ".join(f"n{n}" for n in found)] if found else []
        if self.pick.randrange(2):
            self.say(f"path data {spelled(e)}", writes(f"answers {len(found)}", *nodes))
            return
        word, i = self.index()
        if not self.is_kept(word, i):
            written = ["refused no-index"]
        elif i is None or longest(e) <= i + 1:
            written = [f"answers {len(found)} candidates {len(found)} exact"] + nodes
        else:
            candidates = answers(self.graph, loosened(self.graph, related_in(self.graph, word, i)), e)
            written = [f"answers {len(found)} candidates {len(candidates)} checked"] + nodes
        self.say(f"path {word} {spelled(e)}", writes(*written))

    def why(self):
        e = expression(self.pick, 3)
        found = answers(self.graph, self.graph.edges, e)
        node = self.pick.choice(found) if found and self.pick.randrange(4) else self.any_node()
        line = f"why n{node} {spelled(e)}"
        if not self.graph.is_live(node):
            self.say(line, writes("refused no-node"))
        elif node not in found:
            self.say(line, writes("none"))
        else:
            self.show(line, e, least_walk(self.graph, e, node))

    def show(self, line, e, walk):
        """An answer's walk, and the checks of it and of another with one node changed."""
        self.walks[0] += 1
        self.walks[1] += len(walk) > 1
        self.say(line, writes(f"walk {len(walk)}", " ".join(f"n{n}" for n in walk)))
        changed = list(walk)
        place = self.pick.randrange(len(walk))
        while changed[place] == walk[place]:
            changed[place] = self.any_node()
        for nodes in walk, changed:
            names = ",".join(f"n{n}" for n in nodes)
            self.say(f"check {names} {spelled(e)}", writes("yes" if is_shown(self.graph, e, nodes) else "no"))

    def branch(self):
        query = branching_query(self.pick, 2)
        text = spelled_chain([("", query[0])] + query[1])
        found = branch_answers(self.graph, self.graph.edges, query)
        nodes = [" ".join(f"n{n}" for n in found)] if found else []
        if self.pick.randrange(2):
            self.say(f"branch data {text}", writes(f"answers {len(found)}", *nodes))
            return
        word, i = self.index()
        if not self.is_kept(word, i):
            test = writes("refused no-index")
        elif word == "fb" or word[0] == "b" and depth_of_query(query) <= i:
            test = writes(f"answers {len(found)} candidates {len(found)} exact", *nodes)
        elif word == "one":
            graph = self.graph.copy()
            self.say("extents one", self.list_one())
            test = asks_one(graph, query, found, nodes)
        else:
            candidates = branch_answers(self.graph, loosened(self.graph, related_in(self.graph, word, i)), relaxed(query))
            test = writes(f"answers {len(found)} candidates {len(candidates)} checked", *nodes)
        self.say(f"branch {word} {text}", test)

    def extents(self):
        word, i = self.index()
        if not self.is_kept(word, i):
            test = writes("refused no-index")
        elif word == "one":
            test = self.list_one()
        else:
            test = lists(self.graph.copy(), classes(self.graph, related_in(self.graph, word, i)))
        self.say(f"extents {word}", test)

    def sizes(self):
        if "one" in self.kept:
            self.say("extents one", self.list_one())
        self.count()

    def count(self):
        """Asks for the sizes, the 1-index having been listed."""
        graph = self.graph.copy()
        tests = [writes(f"nodes {len(graph.live())} edges {len(graph.edges)}")]
        tests += [sizes_by_definition(graph, *level) for level in self.levels("a")]
        tests += [sizes_one(graph)] if "one" in self.kept else []
        tests += [sizes_by_definition(graph, "fb", None)] if "fb" in self.kept else []
        tests += [sizes_by_definition(graph, *level) for level in self.levels("b")]
        self.say("sizes", *tests)

    def save(self):
        if "one" in self.kept:
            self.say("extents one", self.list_one())
        graph = self.graph.copy()
        views = [saves_by_definition(graph, *level) for level in self.levels("a")]
        views += [saves_one(graph)] if "one" in self.kept else []
        views += [saves_by_definition(graph, "fb", None)] if "fb" in self.kept else []
        views += [saves_by_definition(graph, *level) for level in self.levels("b")]
        self.say("save", saves_graph(graph, self.k, len(views)), *views)

    def fault(self, written, status):
        """What is wrong with the output, None where nothing is."""
        output = Output(written)
        for test in self.tests:
            fault = test(output)
            if fault:
                return f"line {output.at} of the output: {fault}"
        if output.at != len(output.lines):
            return "more is written"
        wanted = 1 if any(line.startswith("refused") for line in output.lines) else 0
        return None if status == wanted else f"wanted status {wanted}, got {status}"


def written_by(program, lines, file, words):
    """What the program writes for these lines of a script, and its status; it begins with these lines of a graph file, where there is one."""
    with tempfile.TemporaryDirectory() as folder:
        for name, content in ("script", lines), ("graph", file or []):
            with open(os.path.join(folder, name), "w", encoding="utf-8") as out:
                out.writelines(line + "\n" for line in content)
        words = [os.path.join(folder, "script")] + ([] if file is None else ["--graph", os.path.join(folder, "graph")]) + words
        done = subprocess.run([program] + words, capture_output=True, encoding="utf-8")
    return done.stdout, done.returncode


def main():
    if not 2 <= len(sys.argv) <= 4 or sys.argv[3:] not in ([], ["changes"], ["triples"]):
        sys.exit(__doc__)
    runs = int(sys.argv[2]) if len(sys.argv) > 2 else RUNS
    changes, of_hubs, edits, loads, ones, walks = 0, 0, 0, 0, [0, 0], [0, 0]
    for seed in range(runs):
        run = Run(sys.argv[1], seed, "".join(sys.argv[3:]))
        written, status = written_by(sys.argv[1], run.script, run.file, run.words)
        fault = run.fault(written, status)
        if fault:
            print("\n".join(run.script), f"\n{' '.join(run.words)}, over the graph file {run.file}, written, with status {status}:\n{written}")
            sys.exit(f"run {seed}: {fault}")
        changes += run.changes
        of_hubs += run.changes if run.has_hub else 0
        edits += run.edits
        loads += run.loads
        ones = [one + more for one, more in zip(ones, run.ones)]
        walks = [one + more for one, more in zip(walks, run.walks)]
    print(f"ok: {runs:,} runs, {changes:,} changes, {of_hubs:,} of them in runs with a hub; {walks[0]:,} least walks, {walks[1]:,} of more than one node")
    print(f"{edits:,} inserts and deletes; the graph was compared with {loads:,} loads of the present triples")
    if len(sys.argv) == 4:
        print(f"the 1-index was listed after {sum(ones):,} changes, {ones[0]:,} on acyclic graphs and {ones[1]:,} on graphs with cycles")


if __name__ == "__main__":
    main()
