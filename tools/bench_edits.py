#!/usr/bin/env python3
"""Has bin/pathindex insert triples into generated graphs and delete triples of them, and prints what one takes while no index is kept,
and while the A(k)-indexes up to A(2) are. Then it prints what a delete takes of triples whose object is that of all triples of the graph.
The gate doesn't run this.

    bench_edits.py [PROGRAM]

PROGRAM is run instead of bin/pathindex. Half of the first triples are deleted ones of the graph. The others join terms of three of its
lines; of four in turn one brings a new subject, one a new predicate and one a new object. Times are processor times, the best of some
turns, less that of the same run without inserts and deletes.
"""
import os
import pathlib
import random
import subprocess
import sys
import tempfile

from bench_indexes import best_of
from bench_updates import LEAST, MAKE, ROOT, write

# triples, inserts and deletes, and turns: so many that their time stands out beside that of the load
CASES = [(20_000, 20_000, 9), (1_600_000, 40_000, 5)]
HUBS = [(20_000, 9), (600_000, 5)]
# the flags and the first line of the script, and how many deletes there are at a hub
KEPT = {
    "no index": (LEAST, "forget a\n", 2_000),
    "A(0) to A(2)": (["--k", "2", "--without-one", "--without-fb"], "", 20),
}


def inserted(pick, lines, i):
    """The i-th triple that is inserted."""
    subject, predicate, rest = (pick.choice(lines).split(" ", 2)[part] for part in range(3))
    parts = [
        (subject, predicate, rest), (f"<http://e/new{i}>", predicate, rest), (subject, f"<http://e/new{i}>", rest), (subject, predicate, f'"new{i}" .\n'),
    ]
    return " ".join(parts[i % len(parts)])


def edits(lines, count):
    """Lines that insert and delete triples, in turn."""
    pick = random.Random(1)
    for i, gone in enumerate(pick.sample(sorted(set(lines)), count // 2)):
        yield f"insert {inserted(pick, lines, i)}"
        yield f"delete {gone}"


def hub_lines(count):
    """The lines of a graph file whose one object is that of all triples."""
    return [f"<http://e/s{i}> <http://e/type> <http://e/Person> .\n" for i in range(count)]


def made_lines(count):
    return subprocess.run([sys.executable, MAKE, str(count)], capture_output=True, text=True, check=True).stdout.splitlines(keepends=True)


def measure(program, folder, name, edited, turns, what):
    """Prints what each of these inserts and deletes takes in the graph of the folder, while the indexes of this name are kept."""
    flags, first, _ = KEPT[name]
    words = ["--graph", os.path.join(folder, "graph.nt"), *flags]
    without, changed = write(folder, "without", first), write(folder, "with", first + "".join(edited))
    taken = best_of({"without": [program, without, *words], "with": [program, changed, *words]}, turns)
    each = (taken["with"][0] - taken["without"][0]) / len(edited)
    print(f"{what}, {name}: {each * 1e6:,.1f} microseconds an insert or delete of {len(edited):,}", flush=True)


def measure_made(program, folder, count, edited, turns):
    lines = made_lines(count)
    write(folder, "graph.nt", "".join(lines))
    for name in KEPT:
        measure(program, folder, name, list(edits(lines, edited)), turns, f"{count:,} triples")


def measure_hub(program, folder, count, turns):
    lines = hub_lines(count)
    write(folder, "graph.nt", "".join(lines))
    for name, (_, _, deletes) in KEPT.items():
        edited = [f"delete {gone}" for gone in random.Random(1).sample(lines, deletes)]
        measure(program, folder, name, edited, turns, f"{count:,} triples of one object")


def main():
    if len(sys.argv) > 2:
        sys.exit(__doc__)
    program = pathlib.Path(sys.argv[1]).resolve() if len(sys.argv) == 2 else ROOT / "bin" / "pathindex"
    if not os.access(program, os.X_OK):
        sys.exit(f"bench_edits.py: {program} is missing; make run builds bin/pathindex")
    with tempfile.TemporaryDirectory() as folder:
        for count, edited, turns in CASES:
            measure_made(program, folder, count, edited, turns)
        for count, turns in HUBS:
            measure_hub(program, folder, count, turns)


if __name__ == "__main__":
    main()
