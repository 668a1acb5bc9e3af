#!/usr/bin/env python3
"""Has bin/pathindex change generated graphs, and prints what an update takes while only the A(k)-indexes are kept, while only the 1-index
is, and while only the bounded forward and backward indexes are, and what one build takes beside it. Then it prints what an update takes
while a node with many parents loses some of them one by one, and what the run of a seed takes, with its 2,000 changes and 12 queries over
all indexes. The gate doesn't run this.

    bench_updates.py [PROGRAM [PARENTS]]

PROGRAM is run instead of bin/pathindex. PARENTS says how many parents that node has, 20,000 where it isn't given. The other updates are
a node, two links from it and an unlink, in turn. Times are processor times, the best of some turns. That of the updates is less that
of the same run without them, and that of a build less that of a run without the index; of the A(k)-indexes it is A(1) and A(2), since
A(0) is kept in each run, and the bounded ones are built beside these.
"""
import os
import pathlib
import random
import subprocess
import sys
import tempfile

from bench_indexes import best_of

ROOT = pathlib.Path(__file__).resolve().parent.parent
MAKE = ROOT / "tools" / "make_triples.py"
# triples, updates and turns; of the largest graph also so many updates that their time stands out beside that of the load
CASES = [(20_000, 2_000, 9), (200_000, 2_000, 7), (1_600_000, 2_000, 3), (1_600_000, 20_000, 3)]
PARENTS = 20_000
# of its parents the hub loses at most so many
HUB_UPDATES = 5_000
HUB_TURNS = 3
# the parents of the hub have so many labels
HUB_LABELS = 8
# the program keeps A(0) in each run, where the script doesn't forget it
LEAST = ["--k", "0", "--without-one", "--without-fb"]
# the indexes that are kept, by the flags that the program is given, the first line of the script, and what a build is of
KEPT = {
    "A(0) to A(2)": (["--k", "2", "--without-one", "--without-fb"], "", "a build of A(1) and A(2)"),
    "1-index": (["--k", "0", "--without-fb"], "forget a\n", "a build"),
    "B(0) to B(2)": (["--k", "2", "--without-one", "--without-fb", "--with-bk"], "forget a\n", "a build of these, A(1) and A(2)"),
}
SEED = "1"


def changes(nodes, updates):
    """Lines that make so many changes of a graph with so many nodes."""
    pick = random.Random(1)
    for new in range(nodes, nodes + updates // 4):
        first, second = pick.sample(range(nodes), 2)
        yield from (f"node g{pick.randrange(4)}", f"link n{new} n{first}", f"link n{new} n{second}", f"unlink n{new} n{first}")


def node_count(program, script, graph):
    done = subprocess.run(
        [program, script, "--graph", graph, *LEAST], capture_output=True, text=True, check=True,
    )
    return int(done.stdout.split()[1])


def write(folder, name, text):
    path = os.path.join(folder, name)
    with open(path, "w") as out:
        out.write(text)
    return path


def measure(program, folder, graph, lines, turns, what):
    """Prints what each of these lines takes, which change the graph."""
    text = "".join(line + "\n" for line in lines)
    for name, (flags, first, built) in KEPT.items():
        without, changed = write(folder, "without", first), write(folder, "with", first + text)
        taken = best_of({
            "load": [program, without, "--graph", graph, *LEAST],
            "without": [program, without, "--graph", graph, *flags],
            "with": [program, changed, "--graph", graph, *flags],
        }, turns)
        each = (taken["with"][0] - taken["without"][0]) / len(lines)
        build = taken["without"][0] - taken["load"][0]
        print(f"{what}, {name:<12} {each * 1e6:>9.1f} microseconds an update of {len(lines):,}; {built} {build * 1e3:,.0f} ms", flush=True)


def measure_made(program, folder, count, updates, turns):
    graph = os.path.join(folder, f"{count}.nt")
    with open(graph, "wb") as out:
        subprocess.run([sys.executable, MAKE, str(count)], stdout=out, check=True)
    nodes = node_count(program, write(folder, "sizes", "sizes\n"), graph)
    measure(program, folder, graph, list(changes(nodes, updates)), turns, f"{count:,} triples")


def hub_graph(parents):
    """The lines of a graph file whose one object has the nodes of all triples as its parents."""
    for i in range(parents):
        yield f"<http://e/s{i}> <http://e/p{i % HUB_LABELS}> <http://e/hub> .\n"


def hub_changes(parents):
    """Lines that take these parents from the hub, in another order. The first triple is n1 and the hub n2, and then each triple
    has its subject's number and one more."""
    triples = [1] + [2 * i + 2 for i in range(1, parents)]
    random.Random(1).shuffle(triples)
    return [f"unlink n{triple} n2" for triple in triples]


def measure_hub(program, folder, parents, turns):
    graph = write(folder, "hub.nt", "".join(hub_graph(parents)))
    measure(program, folder, graph, hub_changes(parents)[:HUB_UPDATES], turns, f"a hub of {parents:,} parents")


def main():
    if len(sys.argv) > 3 or len(sys.argv) == 3 and not sys.argv[2].isdigit():
        sys.exit(__doc__)
    program = pathlib.Path(sys.argv[1]).resolve() if len(sys.argv) > 1 else ROOT / "bin" / "pathindex"
    parents = int(sys.argv[2]) if len(sys.argv) == 3 else PARENTS
    if not os.access(program, os.X_OK):
        sys.exit(f"bench_updates.py: {program} is missing; make run builds bin/pathindex")
    with tempfile.TemporaryDirectory() as folder:
        for count, updates, turns in CASES:
            measure_made(program, folder, count, updates, turns)
        measure_hub(program, folder, parents, HUB_TURNS)
    seconds, peak = best_of({"made": [program, "--make", SEED]}, 3)["made"]
    print(f"--make {SEED}: {seconds:.2f} seconds, peak {peak:.0f} MB")


if __name__ == "__main__":
    main()
