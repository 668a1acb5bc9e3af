#!/usr/bin/env python3
"""Has bin/pathindex build the 1-index and the forward and backward index of generated graphs of three shapes, and prints what each
build takes above a load, in time and in memory, what path queries take of the graph itself and through each index, and what a
branching query takes of the graph and through the forward and backward index. The gate doesn't run this.

    bench_indexes.py [PROGRAM]

PROGRAM is run instead of bin/pathindex. Times are processor times, the best of some turns, and differences of whole processes.
"""
import os
import pathlib
import subprocess
import sys
import tempfile

ROOT = pathlib.Path(__file__).resolve().parent.parent
MAKE = ROOT / "tools" / "make_triples.py"
CASES = [("dag", 200_000, 7), ("cyclic", 200_000, 7), ("deep", 200_000, 7), ("dag", 1_600_000, 3)]
QUERY = "<http://e/p0>/iri/<http://e/p1>"
BRANCH = "iri[/<http://e/p0> and not(/<http://e/p1>)]"
QUERIES = 200
# the script of each query, by its name, and the index that it needs
ASKED = {
    "path data": ("none", f"path data {QUERY}"),
    "path data, a choice": ("none", "path data (<http://e/p0>|<http://e/p1>)/iri//literal"),
    "path data, repeated": ("none", "path data _*/iri/_+"),
    "path a2": ("a", f"path a2 {QUERY}"),
    "path one": ("one", f"path one {QUERY}"),
    "path fb": ("fb", f"path fb {QUERY}"),
    "branch data": ("none", f"branch data {BRANCH}"),
    "branch fb": ("fb", f"branch fb {BRANCH}"),
}
LEVELS = ["--k", "0"]
INDEXES = {
    "none": [*LEVELS, "--without-one", "--without-fb"],
    "a": ["--k", "2", "--without-one", "--without-fb"],
    "one": [*LEVELS, "--without-fb"],
    "fb": [*LEVELS, "--without-one"],
}


def run(command):
    """The processor seconds that the command takes, and its peak megabytes of memory."""
    child = subprocess.Popen(command, stdout=subprocess.DEVNULL)
    _, status, usage = os.wait4(child.pid, 0)
    child.returncode = os.waitstatus_to_exitcode(status)
    if child.returncode != 0:
        sys.exit(f"bench_indexes.py: {command} ended with the status {child.returncode}")
    return usage.ru_utime + usage.ru_stime, usage.ru_maxrss * 1024 / 1e6


def best_of(commands, turns):
    """Of each command by its name the least seconds, and the most megabytes. They are run in turns."""
    taken = {name: [] for name in commands}
    for _ in range(turns):
        for name, command in commands.items():
            taken[name].append(run(command))
    return {name: (min(s for s, _ in runs), max(m for _, m in runs)) for name, runs in taken.items()}


def measure(program, folder, kind, count, turns):
    text = os.path.join(folder, f"{kind}{count}.nt")
    with open(text, "wb") as out:
        subprocess.run([sys.executable, MAKE, str(count), "1", kind], stdout=out, check=True)
    words = ["--graph", text]
    commands = {name: [program, os.path.join(folder, "empty"), *words, *flags] for name, flags in INDEXES.items()}
    for name, (kept, _) in ASKED.items():
        commands[name] = [program, os.path.join(folder, name), *words, *INDEXES[kept]]
    sizes = subprocess.run([program, os.path.join(folder, "sizes"), *words, *INDEXES["none"]], capture_output=True, text=True, check=True)
    nodes, edges = sizes.stdout.splitlines()[0].split()[1::2]
    return best_of(commands, turns), int(nodes) + int(edges)


def show(kind, count, taken, size):
    load, peak = taken["none"]
    print(f"{kind}, {count:,} triples: load {load * 1000:.0f} ms, peak {peak:.0f} MB")
    for name, title in [("one", "1-index"), ("fb", "forward and backward index")]:
        seconds, most = taken[name]
        each = (most - peak) * 1e6 / size
        print(f"    {title:<28} {(seconds - load) * 1000:>8.0f} ms, {most - peak:.0f} MB more: {each:.0f} bytes for each node and edge")
    for name, (kept, _) in ASKED.items():
        seconds = (taken[name][0] - taken[kept][0]) / QUERIES
        print(f"    {name:<28} {seconds * 1000:>8.2f} ms", flush=True)


def main():
    if len(sys.argv) > 2:
        sys.exit(__doc__)
    program = pathlib.Path(sys.argv[1]).resolve() if len(sys.argv) == 2 else ROOT / "bin" / "pathindex"
    if not os.access(program, os.X_OK):
        sys.exit(f"bench_indexes.py: {program} is missing; make run builds bin/pathindex")
    with tempfile.TemporaryDirectory() as folder:
        for name, text in [("empty", ""), ("sizes", "sizes\n")] + [(name, f"{line}\n" * QUERIES) for name, (_, line) in ASKED.items()]:
            with open(os.path.join(folder, name), "w") as out:
                out.write(text)
        for kind, count, turns in CASES:
            show(kind, count, *measure(program, folder, kind, count, turns))


if __name__ == "__main__":
    main()
