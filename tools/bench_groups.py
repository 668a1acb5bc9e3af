#!/usr/bin/env python3
"""Has bin/pathindex change generated graphs by groups, and prints what a group takes beside the same changes one by one: random changes,
links that leave their ends alike, loops at like nodes, and links from one node with the drop of another one; and what a change at a node with many edges
takes beside a build of the same indexes, which reads each edge once for each level. The gate doesn't run this.

    bench_groups.py [PROGRAM [EDGES]]

PROGRAM is run instead of bin/pathindex. EDGES says how many edges that node has, 200,000 where it isn't given. Times are processor
times, the best of some turns, and differences of whole processes: of the A(k)-indexes up to A(2) alone, of the 1-index alone, and of
the bounded forward and backward indexes.
"""
import os
import pathlib
import random
import subprocess
import sys
import tempfile

from bench_indexes import best_of
from bench_updates import KEPT, LEAST, MAKE, ROOT, hub_graph, node_count, write

TRIPLES = 20_000
STEPS = 1_024
GROUPS = 8
TURNS = 5
EDGES = 200_000
HUB = 2  # the number of the object of all triples
HUB_TURNS = 3


def changes(nodes, pick):
    """Lines of one group: edges that come at random places, and nodes."""
    for _ in range(STEPS // 2):
        yield f"link n{pick.randrange(nodes)} n{pick.randrange(nodes)}"
        yield f"node g{pick.randrange(4)}"


def grouped(lines):
    return ["begin", *lines, "end"]


def measure(program, folder, graph, scripts, turns, what):
    """Prints what each script takes beyond the load, and what a build of these indexes takes, which reads each edge once for each level."""
    for name, (flags, first, built) in KEPT.items():
        none = write(folder, "none", first)
        commands = {"": [program, none, "--graph", graph, *flags], "least": [program, none, "--graph", graph, *LEAST]}
        for script, lines in scripts.items():
            path = write(folder, script.replace(" ", "_"), first + "".join(line + "\n" for line in lines))
            commands[script] = [program, path, "--graph", graph, *flags]
        taken = best_of(commands, turns)
        load = taken[""][0]
        figures = ", ".join(f"{script} {(taken[script][0] - load) * 1e3:,.1f} ms" for script in scripts)
        print(f"{what}, {name}: {figures}; {built} {(load - taken['least'][0]) * 1e3:,.1f} ms", flush=True)


def measure_groups(program, folder):
    graph = os.path.join(folder, "made.nt")
    with open(graph, "wb") as out:
        subprocess.run([sys.executable, MAKE, str(TRIPLES)], stdout=out, check=True)
    nodes = node_count(program, write(folder, "sizes", "sizes\n"), graph)
    pick = random.Random(1)
    groups = [list(changes(nodes, pick)) for _ in range(GROUPS)]
    scripts = {
        "in groups": [line for group in groups for line in grouped(group)],
        "one by one": [line for group in groups for line in group],
    }
    measure(program, folder, graph, scripts, TURNS, f"{TRIPLES:,} triples, {GROUPS} groups of {STEPS:,} changes")
    measure_like(program, folder, graph, nodes)


def measure_like(program, folder, graph, first):
    """Links between like nodes, loops at like nodes, and links from one node with the drop of a node to which none leads."""
    nodes = ["node from"] * STEPS + ["node onto"] * STEPS
    like = [f"link n{first + i} n{first + STEPS + i}" for i in range(STEPS)]
    loops = [f"link n{first + i} n{first + i}" for i in range(STEPS)]
    fan = [f"link n{first} n{first + STEPS + i}" for i in range(STEPS - 1)] + [f"drop n{first + 2 * STEPS - 1}"]
    cases = ((f"{STEPS:,} like links", like), (f"{STEPS:,} loops", loops), (f"{STEPS - 1:,} links from one node, and a drop", fan))
    for what, lines in cases:
        scripts = {"the new nodes": nodes, "and these one by one": nodes + lines, "and these in a group": nodes + grouped(lines)}
        measure(program, folder, graph, scripts, TURNS, f"{TRIPLES:,} triples, {what}")


def hub_edges(program, folder, graph, lines):
    """How many edges the hub has of its own after these lines: those that go when it is dropped; and how many the graph has then."""
    path = write(folder, "hub_edges", "".join(line + "\n" for line in [*lines, "sizes", f"drop n{HUB}", "sizes"]))
    done = subprocess.run([program, path, "--graph", graph, *LEAST], capture_output=True, text=True, check=True)
    before, after = (int(line.split()[3]) for line in done.stdout.splitlines() if line.startswith("nodes "))
    return before - after, before


def measure_hub(program, folder, edges):
    """A graph whose one object has the nodes of all triples as its parents, and nodes that are linked to it."""
    graph = write(folder, "hub.nt", "".join(hub_graph(edges)))
    first = node_count(program, write(folder, "sizes", "sizes\n"), graph)
    nodes = ["node spoke"] * STEPS
    links = [f"link n{first + i} n{HUB}" for i in range(STEPS)]
    scripts = {
        "the new nodes": nodes,
        "and one link": nodes + links[:1],
        "and all links in a group": nodes + grouped(links),
        "and the drop of the hub": nodes + [f"drop n{HUB}"],
    }
    own, all_edges = hub_edges(program, folder, graph, nodes)
    linked, _ = hub_edges(program, folder, graph, nodes + grouped(links))
    what = f"a hub with {own:,} of {all_edges:,} edges, {linked:,} after all links"
    measure(program, folder, graph, scripts, HUB_TURNS, what)


def main():
    if len(sys.argv) > 3 or len(sys.argv) == 3 and not sys.argv[2].isdigit():
        sys.exit(__doc__)
    program = pathlib.Path(sys.argv[1]).resolve() if len(sys.argv) > 1 else ROOT / "bin" / "pathindex"
    edges = int(sys.argv[2]) if len(sys.argv) == 3 else EDGES
    if not os.access(program, os.X_OK):
        sys.exit(f"bench_groups.py: {program} is missing; make run builds bin/pathindex")
    with tempfile.TemporaryDirectory() as folder:
        measure_groups(program, folder)
        measure_hub(program, folder, edges)


if __name__ == "__main__":
    main()
