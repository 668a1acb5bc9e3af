#!/usr/bin/env python3
"""Has bin/pathindex save generated graphs with all their indexes as index files, and check these files, and prints what that takes. The
gate doesn't run this.

    bench_files.py [PROGRAM]

PROGRAM is run instead of bin/pathindex. Times are processor times, the best of some turns. That of a save is less that of a run that
computes the same indexes. A check is a whole process; what it takes to read the file alone is that of a check of the same file without
views.

Then it has files checked that are made to be slow: at twice the size a check should take twice as long. In `hub` each node of a chain of one
label leads to one more node. In `ring` each round of refinement parts two nodes from thousands, and in `hubs` each has two more nodes to
look at that have thousands of children. In `twins` each node of the chain has 65 more parents, and these have as many children as the chain
has nodes. In `parting` there are as many hubs as other nodes, and a round parts one of each: here twice the edges are twice the size. In
`chains` the nodes that a round looks at are numbered 1,024 apart.
"""
import multiprocessing
import os
import pathlib
import subprocess
import sys
import tempfile

ROOT = pathlib.Path(__file__).resolve().parent.parent
MAKE = ROOT / "tools" / "make_triples.py"
# shape, triples and turns
CASES = [("dag", 200_000, 5), ("cyclic", 200_000, 5), ("deep", 200_000, 5), ("dag", 1_600_000, 2)]
# nodes of the files that are made to be slow
SLOW = [50_000, 100_000]
TWINS = [8_000, 16_000]
PARTING = [700, 990]
CHAINS = [1024 * 256, 1024 * 512]


def run(command, output=subprocess.DEVNULL):
    """The processor seconds that the command takes, and its peak megabytes of memory."""
    child = subprocess.Popen(command, stdout=output)
    _, status, usage = os.wait4(child.pid, 0)
    child.returncode = os.waitstatus_to_exitcode(status)
    if child.returncode != 0:
        sys.exit(f"bench_files.py: {command} ended with the status {child.returncode}")
    return usage.ru_utime + usage.ru_stime, usage.ru_maxrss * 1024 / 1e6


def best_of(commands, turns):
    """Of each command by its name the least seconds, and the most megabytes. They are run in turns."""
    taken = {name: [] for name in commands}
    for _ in range(turns):
        for name, command in commands.items():
            taken[name].append(run(command))
    return {name: (min(s for s, _ in runs), max(m for _, m in runs)) for name, runs in taken.items()}


def without_views(file, to):
    """Writes the file's graph alone."""
    with open(file, "rb") as lines, open(to, "wb") as out:
        for line in lines:
            if line.startswith(b"views "):
                out.write(b"views 0\n")
                return
            out.write(line)


def measure(program, folder, kind, count, turns):
    place = lambda name: os.path.join(folder, name)
    graph, file, bare = place("graph.nt"), place("file"), place("bare")
    with open(graph, "wb") as out:
        subprocess.run([sys.executable, MAKE, str(count), "1", kind], stdout=out, check=True)
    with open(file, "wb") as out:
        run([program, place("save"), "--graph", graph], out)
    without_views(file, bare)
    taken = best_of({
        "builds": [program, place("builds"), "--graph", graph],
        "save": [program, place("save"), "--graph", graph],
        "check": [program, "--check", file],
        "read": [program, "--check", bare],
    }, turns)
    size, read = os.path.getsize(file) / 1e6, os.path.getsize(bare) / 1e6
    save = taken["save"][0] - taken["builds"][0]
    print(f"{kind}, {count:,} triples: an index file of {size:.1f} MB")
    print(f"    save     {save:>8.2f} s, {size / save:.0f} MB a second, {taken['save'][1] - taken['builds'][1]:.0f} MB more")
    print(f"    read     {taken['read'][0]:>8.2f} s, {read / taken['read'][0]:.0f} MB a second of the graph's lines, {taken['read'][1]:.0f} MB")
    print(f"    --check  {taken['check'][0]:>8.2f} s, {taken['check'][1]:.0f} MB", flush=True)


def write_file(file, labels, edges, via, ranks=None):
    """Writes an index file with one view. Each node has a block of its own, if no ranks are given."""
    ranks = range(len(labels)) if ranks is None else ranks
    lines = ["pathindex 1", f"given {len(labels)} k 0", *(f"live {label}" for label in labels), f"edges {len(edges)}"]
    lines += [*(f"{start} {end}" for start, end in sorted(edges)), "views 1", f"view {via}", *map(str, ranks)]
    with open(file, "w") as out:
        out.write("\n".join(lines) + "\n")


def write_hub(file, count):
    """A chain, of which each node leads to one more node."""
    edges = [(n, n + 1) for n in range(count - 1)] + [(n, count) for n in range(count)]
    write_file(file, ["a"] * (count + 1), edges, "one")


def write_ring(file, count):
    """A ring of six labels by turns. Another node leads to each but one of the first label, and one to each but one of the last label; these
    are told from others of their labels in the first rounds alone."""
    turns = count // 6
    labels = ["p", "q", "h", "h", "t", "t", "g", "g"] + [f"r{n % 6}" for n in range(6 * turns)]
    first, last = range(8, len(labels), 6), range(13, len(labels), 6)
    edges = [(0, 2), (1, 3), (0, 4), (1, 5), (4, 6), (5, 7), (2, first[0]), (7, last[-1])]
    edges += [(3, n) for n in first[1:]] + [(6, n) for n in last[:-1]]
    edges += [(n, n + 1) for n in range(8, len(labels) - 1)] + [(len(labels) - 1, 8)]
    write_file(file, labels, edges, "fb")


def write_hubs(file, count):
    """A chain, and two more nodes that lead to all of it, one of them to all but the middle."""
    edges = [(n, n + 1) for n in range(count - 1)] + [(count, n) for n in range(count)]
    edges += [(count + 1, n) for n in range(count) if n != count // 2]
    write_file(file, ["a"] * count + ["h", "h"], edges, "fb")


def write_twins(file, count):
    """A chain, and two more nodes of one block that lead to all of it. So do 65 nodes that are alone in their blocks."""
    tells = range(count + 2, count + 67)
    edges = [(n, n + 1) for n in range(count - 1)] + [(start, n) for start in (count, count + 1, *tells) for n in range(count)]
    write_file(file, ["a"] * count + ["h", "h", *(f"t{n}" for n in tells)], edges, "fb", [*range(count + 1), *range(count, count + 66)])


def write_parting(file, count):
    """Nodes of one label but the first, and as many hubs, of which the one with the number i leads to each of them but those numbered i and i + 1."""
    edges = [(count + hub, n) for hub in range(count) for n in range(count) if n not in (hub, hub + 1)]
    write_file(file, ["m"] + ["a"] * (count - 1) + ["h"] * count, edges, "fb")


def write_chains(file, count):
    """Chains of 1,024 nodes of one label, one after the other."""
    edges = [(n, n + 1) for n in range(count - 1) if n % 1024 != 1023]
    write_file(file, ["a"] * count, edges, "fb", [n % 1024 for n in range(count)])


def measure_slow(program, folder):
    file = os.path.join(folder, "slow")
    for kind, write in (("hub", write_hub), ("ring", write_ring), ("hubs", write_hubs), ("twins", write_twins), ("parting", write_parting), ("chains", write_chains)):
        for count in {"twins": TWINS, "parting": PARTING, "chains": CHAINS}.get(kind, SLOW):
            # in a process of its own, since a child's peak of memory is at least that of the process that starts it
            writer = multiprocessing.Process(target=write, args=(file, count))
            writer.start()
            writer.join()
            taken = best_of({"check": [program, "--check", file]}, 2)["check"]
            print(f"{kind}, {count:,} nodes: --check  {taken[0]:>8.2f} s, {taken[1]:.0f} MB", flush=True)


def main():
    if len(sys.argv) > 2:
        sys.exit(__doc__)
    program = pathlib.Path(sys.argv[1]).resolve() if len(sys.argv) == 2 else ROOT / "bin" / "pathindex"
    if not os.access(program, os.X_OK):
        sys.exit(f"bench_files.py: {program} is missing; make run builds bin/pathindex")
    with tempfile.TemporaryDirectory() as folder:
        # a query through the forward and backward index has it computed
        for name, line in (("save", "save"), ("builds", "path fb none")):
            with open(os.path.join(folder, name), "w") as out:
                out.write(f"{line}\n")
        for case in CASES:
            measure(program, folder, *case)
        measure_slow(program, folder)


if __name__ == "__main__":
    main()
