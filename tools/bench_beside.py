#!/usr/bin/env python3
"""Prints what bin/pathindex takes for loads, builds, queries and updates on generated graphs, beside plain C++ (tools/yardstick.cpp) where
g++ is on the path. The gate doesn't run this.

    bench_beside.py [PROGRAM]

PROGRAM is run instead of bin/pathindex. Times are processor times, the least of some turns, in which both are run one after the other. A
build, a query and an update are what a run takes beyond the same run without it. Of the program's queries each is asked with its own index
alone. An update is one of 2,000 changes: a node, two links from it and an unlink, in turn.
"""
import os
import pathlib
import shutil
import subprocess
import sys
import tempfile

from bench_indexes import INDEXES, best_of
from bench_updates import KEPT, MAKE, changes, node_count, write

SOURCE = pathlib.Path(__file__).resolve().parent / "yardstick.cpp"
ROOT = SOURCE.parent.parent
LEVELS = 2
RUNS = 100
UPDATES = 2_000
# shape, triples and turns, and whether queries and updates are measured too
CASES = [("dag", 20_000, 5, False), ("dag", 200_000, 5, True), ("cyclic", 200_000, 5, False), ("deep", 200_000, 5, False), ("dag", 1_600_000, 1, False)]
BUILDS = {"a": f"A(0) to A({LEVELS})", "one": "1-index", "fb": "forward and backward index"}
# the yardstick's name of each query, and its command
QUERIES = {
    "three": "path {} <http://e/p0>/iri/<http://e/p1>",
    "below": "path {} <http://e/p0>//literal",
    "branch": "branch {} iri[/<http://e/p0> and not(/<http://e/p1>)]",
}
# what each query is asked through, and the indexes that are kept then
VIAS = {"data": "none", f"a{LEVELS}": "a", "one": "one", "fb": "fb"}


def compiled(folder):
    """The yardstick's program, and None if there is no g++."""
    if not shutil.which("g++"):
        print("g++ isn't on the path, so the program stands alone; apt-get install g++ brings it")
        return None
    tool = os.path.join(folder, "yardstick")
    subprocess.run(["g++", "-O2", "-std=c++17", "-o", tool, SOURCE], check=True)
    return tool


def of_yardstick(tool, graph, turns):
    """The least seconds of each of its works by name."""
    least = {}
    for _ in range(turns if tool else 0):
        for line in subprocess.run([tool, graph, str(LEVELS)], capture_output=True, text=True, check=True).stdout.splitlines():
            name, seconds, _ = line.split()
            least[name] = min(least.get(name, float(seconds)), float(seconds))
    return least


def show(what, mine, other=None):
    beside = f"{other * 1e3:>12.2f}{mine / other:>8.2f}" if other else ""
    print(f"    {what:<56}{mine * 1e3:>12.2f}{beside}", flush=True)


def commands_of(program, folder, graph, is_whole):
    """What is run for a graph, by name."""
    run = lambda script, flags: [program, script, "--graph", graph, *flags]
    empty = write(folder, "empty", "")
    commands = {index: run(empty, flags) for index, flags in INDEXES.items()}
    if not is_whole:
        return commands
    for name, line in QUERIES.items():
        for via, kept in VIAS.items():
            script = write(folder, f"{name}_{via}", (line.format(via) + "\n") * RUNS)
            commands[name, via] = run(script, INDEXES[kept])
    nodes = node_count(program, write(folder, "sizes", "sizes\n"), graph)
    lines = "".join(f"{line}\n" for line in changes(nodes, UPDATES))
    for index, (flags, first, _) in KEPT.items():
        commands["before", index] = run(write(folder, f"first{index[0]}", first), flags)
        commands["update", index] = run(write(folder, f"all{index[0]}", first + lines), flags)
    return commands


def measure(program, tool, folder, kind, count, turns, is_whole):
    graph = os.path.join(folder, "graph.nt")
    with open(graph, "wb") as out:
        subprocess.run([sys.executable, MAKE, str(count), "1", kind], stdout=out, check=True)
    taken = {name: seconds for name, (seconds, _) in best_of(commands_of(program, folder, graph, is_whole), turns).items()}
    other = of_yardstick(tool, graph, turns)
    print(f"{kind}, {count:,} triples{'':<{58 - len(kind) - len(f'{count:,}')}}ms     C++, ms   ratio")
    show("load", taken["none"], other.get("load"))
    for index, title in BUILDS.items():
        show(title, taken[index] - taken["none"], other.get(index))
    if not is_whole:
        return
    for name, line in QUERIES.items():
        for via, kept in VIAS.items():
            show(line.format(via), (taken[name, via] - taken[kept]) / RUNS, other.get(name))
    for index in KEPT:
        show(f"update of {index}", (taken["update", index] - taken["before", index]) / UPDATES)


def main():
    if len(sys.argv) > 2:
        sys.exit(__doc__)
    program = pathlib.Path(sys.argv[1]).resolve() if len(sys.argv) == 2 else ROOT / "bin" / "pathindex"
    if not os.access(program, os.X_OK):
        sys.exit(f"bench_beside.py: {program} is missing; make run builds bin/pathindex")
    with tempfile.TemporaryDirectory() as folder:
        tool = compiled(folder)
        for case in CASES:
            measure(program, tool, folder, *case)


if __name__ == "__main__":
    main()
