#!/usr/bin/env python3
"""Compares what `pathindex --check` says of index files with a second reader: check_files.py PROGRAM [RUNS [SEED]].

Each of RUNS files (20,000 if it isn't given) is made of a small random graph, of views of some indexes of it, and of other spellings: other
line ends, no last line end, labels spelled in other ways. Four of five of them are then changed. Half of these get another rank or label, or
lose an edge; in the others, in up to three places, a line is left out, doubled, moved or replaced, a number becomes another one, a byte is
changed, or the text is cut off. What the program must write of the text, and with which status, is worked out below from docs/FORMATS.md,
with nothing of the program: a reader of lines, and the definitions of the indexes. The first file of which the program says something else is
printed with both, and the exit status is 1. At the end it is printed how often each verdict came.
"""
import collections
import os
import random
import re
import subprocess
import sys
import tempfile

RUNS = 20000
MOST_NODES, MOST_EDGES, MOST_LABELS, MOST_LEVEL = 2 ** 21, 2 ** 22, 2 ** 20, 8
LINE_BYTES, TEXT_BYTES = 2 ** 20, 2 ** 30
LABELS = [b"a", b"b", b"iri", b"<http://e/p>", "<\u00e9>".encode(), rb"<\u0020>"]
SPELLINGS = {  # of a label, in other ways
    b"<http://e/p>": [rb"<http://e/\u0070>", rb"<\U00000068ttp://e/p>"],
    "<\u00e9>".encode(): [rb"<\u00E9>", rb"<\U000000e9>"],
    rb"<\u0020>": [rb"<\U00000020>"],
}
FORMS = [b"pathindex 1", b"pathindex 2", b"given 3 k 2", b"given 03 k 2", b"given 3 k 9", b"given 2097152 k 1", b"given 2097153 k 9",
         b"given 3  k 2", b"given 3 k", b"given 18446744073709551616 k 2", b"live a", b"live and", b"live", b"live a b", b"live  a", b"live <a", b"gone",
         b"gone ", b"Gone", b"edges 0", b"edges 1", b"edges 4194304", b"edges 4194305", b"edges -1", b"0 0", b"0 1", b"1 0", b"00 1", b"0  1", b"0\t1",
         b"4294967296 0", b"0 18446744073709551616", b"views 0", b"views 1", b"views 18446744073709551616", b"views +1", b"view a0", b"view a1",
         b"view a01", b"view a9", b"view a18446744073709551616", b"view one", b"view One", b"view fb", b"view b0", b"view b1", b"view b", b"view data",
         b"view", b"0", b"1", b"2", b"00", b"18446744073709551616", b"", b" ", b"# a note", b"\xff"]

# ---- the reader


class Refused(Exception):
    """Why the next line, or its end, is refused."""


def number(text):
    """The number that the text writes, and none where it writes none."""
    return int(text) if re.fullmatch(rb"0|[1-9][0-9]*", text) else None


def numbers(pattern, line):
    found = re.fullmatch(pattern, line)
    values = [number(part) for part in found.groups()] if found else [None]
    return None if None in values else values


def label(text):
    """The label that the text spells: characters, as they are once escapes are resolved."""
    if re.fullmatch(rb"[A-Za-z][A-Za-z0-9_-]*", text):
        return None if text in (b"and", b"or", b"not") else text.decode()
    try:
        text = text.decode()
    except UnicodeDecodeError:
        return None
    if not re.fullmatch(r'<(?:[^\x00-\x20<>"{}|^`\\]|\\u[0-9A-Fa-f]{4}|\\U[0-9A-Fa-f]{8})*>', text):
        return None
    codes = [int(code[2:], 16) for code in re.findall(r"\\u[0-9A-Fa-f]{4}|\\U[0-9A-Fa-f]{8}", text)]
    if any(code > 0x10FFFF or 0xD800 <= code <= 0xDFFF for code in codes):
        return None
    return "<" + re.sub(r"\\u([0-9A-Fa-f]{4})|\\U([0-9A-Fa-f]{8})", lambda m: chr(int(m[1] or m[2], 16)), text[1:-1]) + ">"


def lines_of(text):
    """The lines in order, each within the limits on bytes. Then no line is left."""
    taken = 0
    for found in re.finditer(rb"([^\r\n]*)(\r\n|\r|\n|\Z)", text):
        if found[0] == b"":
            break
        taken += len(found[0])
        if len(found[1]) > LINE_BYTES or taken > TEXT_BYTES:
            raise Refused("limit")
        yield found[1]


def order(k):
    """The indexes in the order of their views, by kinds: of each kind none or all are there."""
    return [[f"a{i}" for i in range(k + 1)], ["one"], ["fb"], [f"b{i}" for i in range(k + 1)]]


def may_follow(k, names, name):
    """Whether the views may begin with these and then that one."""
    places = [(i, j) for i, kind in enumerate(order(k)) for j, via in enumerate(kind) if via == name]
    if not places:
        return False
    kind, level = places[0]
    last = [(i, j) for i, names_of in enumerate(order(k)) for j, via in enumerate(names_of) if names and via == names[-1]]
    if level > 0:
        return last == [(kind, level - 1)]
    return not last or (last[0][0] < kind and last[0][1] == len(order(k)[last[0][0]]) - 1)


def is_over(k, names):
    return not names or any(kind[-1] == names[-1] for kind in order(k))


class Reader:
    """Reads a text; `count` is how many lines were taken."""

    def __init__(self, text):
        self.lines, self.count = lines_of(text), 0

    def next(self):
        line = next(self.lines, None)
        if line is None:
            raise Refused("syntax")
        return line

    def demand(self, holds, reason="syntax"):
        if not holds:
            raise Refused(reason)

    def take(self, holds=True):
        self.demand(holds)
        self.count += 1

    def read(self):
        self.take(self.next() == b"pathindex 1")
        found = numbers(rb"given ([^ ]*) k ([^ ]*)", self.next())
        self.demand(found)
        self.demand(found[0] <= MOST_NODES, "limit")
        self.take(found[1] <= MOST_LEVEL)
        size, self.k = found
        self.labels, seen = [], set()
        for _ in range(size):
            line = self.next()
            text = label(line[5:]) if line.startswith(b"live ") else None
            self.demand(line == b"gone" or text is not None)
            self.demand(text is None or text in seen or len(seen) < MOST_LABELS, "limit")
            self.labels.append(text)
            seen.add(text)
            self.take()
        self.live = [n for n in range(size) if self.labels[n] is not None]
        self.edges = self.read_edges()
        self.views = self.read_views()
        return self

    def read_edges(self):
        found = numbers(rb"edges ([^ ]*)", self.next())
        self.demand(found)
        self.demand(found[0] <= MOST_EDGES, "limit")
        self.take()
        edges, live = [], set(self.live)
        for _ in range(found[0]):
            ends = numbers(rb"([^ ]*) ([^ ]*)", self.next())
            self.demand(ends)
            self.take(set(ends) <= live and (not edges or edges[-1] < tuple(ends)))
            edges.append(tuple(ends))
        return edges

    def read_views(self):
        found = numbers(rb"views ([^ ]*)", self.next())
        self.take(found)
        views = []
        while len(views) < found[0]:
            line = self.next()
            name = line[5:].decode("ascii", "replace")
            self.take(line.startswith(b"view ") and may_follow(self.k, [via for via, _ in views], name))
            views.append((name, self.read_ranks()))
        line = next(self.lines, None)
        self.demand(line is None and is_over(self.k, [via for via, _ in views]))
        return views

    def read_ranks(self):
        block, most = {}, 0
        for n in self.live:
            rank = number(self.next())
            self.take(rank is not None and rank <= most)
            block[n] = rank
            most = max(most, rank + 1)
        return block


# ---- the indexes


def neighbours(nodes, edges):
    parents, children = {n: set() for n in nodes}, {n: set() for n in nodes}
    for start, end in edges:
        parents[end].add(start)
        children[start].add(end)
    return parents, children


def next_classes(block, sides):
    """The next level: numbers of pairs of a class and the classes of the neighbours on each side."""
    keys = {n: (block[n], *(frozenset(block[m] for m in side[n]) for side in sides)) for n in block}
    numbers_of = {}
    return {n: numbers_of.setdefault(keys[n], len(numbers_of)) for n in block}


def classes(labels, nodes, sides, level=None):
    """The classes of bisimilarity to a level, or of all levels."""
    block = {n: labels[n] for n in nodes}
    rounds = len(nodes) + 1 if level is None else level
    for _ in range(rounds):
        block = next_classes(block, sides)
    return block


def agree(block, other):
    return len(set(block.values())) == len(set(other.values())) == len({(block[n], other[n]) for n in block})


def is_stable(labels, block, parents):
    return len({(b, labels[n], frozenset(block[p] for p in parents[n])) for n, b in block.items()}) == len(set(block.values()))


def is_minimal(labels, block, parents):
    """No two blocks can be one: that leaves the partition unstable."""
    blocks = sorted(set(block.values()))
    return not any(is_stable(labels, {n: a if c == b else c for n, c in block.items()}, parents) for a in blocks for b in blocks if a < b)


def fits(file, via, block):
    parents, children = neighbours(file.live, file.edges)
    if via == "one":
        return is_stable(file.labels, block, parents) and is_minimal(file.labels, block, parents)
    sides = [parents] if via[0] == "a" else [parents, children]
    return agree(block, classes(file.labels, file.live, sides, None if via == "fb" else int(via[1:])))


def verdict(text):
    """What has to be written, and the status."""
    reader = Reader(text)
    try:
        file = reader.read()
    except Refused as reason:
        return f"index {reader.count + 1} {reason}\n", 3
    for via, block in file.views:
        if not fits(file, via, block):
            return f"view {via} differs\n", 8
    return "fits\n", 0


# ---- files


def ranked(block, nodes):
    ranks = {}
    return [ranks.setdefault(block[n], len(ranks)) for n in nodes]


def merged(draw, labels, nodes, parents):
    """A partition that is stable and minimal, from one node a block on, by merging in any order."""
    block = {n: n for n in nodes}
    pairs = [(a, b) for a in nodes for b in nodes if a < b]
    draw.shuffle(pairs)
    again = True
    while again:
        again = False
        for a, b in pairs:
            one = {n: block[a] if c == block[b] else c for n, c in block.items()}
            if block[a] != block[b] and is_stable(labels, one, parents):
                block, again = one, True
    return block


def lawful(draw):
    """The lines of a file whose views fit."""
    size, k, count = draw.randrange(7), draw.randrange(3), draw.randrange(1, 4)
    labels = [draw.choice(LABELS[:count]) if draw.randrange(6) else None for _ in range(size)]
    nodes = [n for n in range(size) if labels[n] is not None]
    edges = sorted({(draw.choice(nodes), draw.choice(nodes)) for _ in range(draw.randrange(9))} if nodes else ())
    parents, children = neighbours(nodes, edges)
    kinds = [kind for kind in order(k) if draw.randrange(3)]
    lines = [b"pathindex 1", b"given %d k %d" % (size, k), *(b"gone" if t is None else b"live " + t for t in labels)]
    lines += [b"edges %d" % len(edges), *(b"%d %d" % e for e in edges), b"views %d" % sum(map(len, kinds))]
    for via in (via for kind in kinds for via in kind):
        sides = [parents] if via[0] in "ao" else [parents, children]
        level = int(via[1:]) if via[1:].isdigit() else None
        block = merged(draw, labels, nodes, parents) if via == "one" and draw.randrange(2) else classes(labels, nodes, sides, level)
        lines += [b"view " + via.encode(), *(b"%d" % rank for rank in ranked(block, nodes))]
    return lines


def respelled(draw, lines):
    return [b"live " + draw.choice([line[5:], *SPELLINGS.get(line[5:], [])]) if line.startswith(b"live ") else line for line in lines]


def joined(draw, lines):
    """The lines with ends, of one sort or of all."""
    ends = draw.choice([[b"\n"], [b"\r\n"], [b"\r"], [b"\n", b"\r\n", b"\r"]])
    text = b"".join(line + draw.choice(ends) for line in lines)
    # A CR before an LF would be one end.
    return re.sub(rb"[\r\n]*\Z", b"", text) if draw.randrange(6) == 0 else text


def changed(draw, lines):
    lines, at = list(lines), draw.randrange(len(lines))
    how = draw.randrange(8)
    if how == 0:
        del lines[at]
    elif how == 1:
        lines.insert(at, lines[at])
    elif how == 2:
        lines.insert(draw.randrange(len(lines)), lines.pop(at))
    elif how == 3:
        lines[at] = draw.choice(FORMS)
    elif how == 4:
        lines.insert(at, draw.choice(FORMS))
    elif how == 5:
        del lines[at:]
    else:
        found = list(re.finditer(rb"[0-9]+", lines[at]))
        if found:
            part = draw.choice(found)
            value = draw.choice([int(part[0]) + 1, max(int(part[0]) - 1, 0), draw.randrange(4), 2 ** 32, 2 ** 64])
            lines[at] = lines[at][:part.start()] + b"%d" % value + lines[at][part.end():]
    return lines or [b""]


def moved(draw, lines):
    """Another rank for a node, another label, or one edge less: the text may still be read, and a view may differ."""
    lines = list(lines)
    how = draw.choice([rb"[0-9]+", rb"[0-9]+", rb"live .*", rb"[0-9]+ [0-9]+"])
    found = [at for at, line in enumerate(lines) if re.fullmatch(how, line)]
    if not found:
        return lines
    at = draw.choice(found)
    if how == rb"[0-9]+":
        lines[at] = b"%d" % draw.randrange(3)
    elif how == rb"live .*":
        lines[at] = b"live " + draw.choice(LABELS)
    else:
        del lines[at]
        head = next(i for i, line in enumerate(lines) if line.startswith(b"edges "))
        lines[head] = b"edges %d" % (int(lines[head][6:]) - 1)
    return lines


def damaged(draw, text):
    """The text with one byte changed, or cut off."""
    at = draw.randrange(len(text) + 1)
    how = draw.randrange(3)
    return text[:at] if how == 0 else text[:at] + bytes([draw.choice(b" 01a\n\r\t\x00\xff>")]) + text[at + (how == 1):]


def made(draw):
    lines = respelled(draw, lawful(draw))
    if draw.randrange(5) == 0:
        return joined(draw, lines)
    if draw.randrange(2):
        return joined(draw, moved(draw, lines))
    for _ in range(draw.randrange(1, 4)):
        lines = changed(draw, lines)
    text = joined(draw, lines)
    return damaged(draw, text) if draw.randrange(4) == 0 else text


def main(program, runs=RUNS, seed=1):
    draw, counts = random.Random(seed), collections.Counter()
    with tempfile.TemporaryDirectory() as folder:
        path = os.path.join(folder, "f")
        for run in range(runs):
            text = made(draw)
            with open(path, "wb") as file:
                file.write(text)
            done = subprocess.run([*program.split(), "--check", path], stdout=subprocess.PIPE, check=False)
            wanted = verdict(text)
            if (done.stdout, done.returncode) != (wanted[0].encode(), wanted[1]):
                sys.exit(f"file {run}, {text!r}:\nit writes {done.stdout!r} with status {done.returncode}, and not {wanted}")
            counts["fits" if wanted[1] == 0 else "differs" if wanted[1] == 8 else wanted[0].split()[-1]] += 1
    print(f"{runs} files:", ", ".join(f"{counts[word]} {word}" for word in ("fits", "differs", "syntax", "limit")))


if __name__ == "__main__":
    main(sys.argv[1], *map(int, sys.argv[2:]))
