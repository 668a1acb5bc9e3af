#!/usr/bin/env python3
"""Has bin/pathindex show by which walks nodes of generated graphs answer path expressions, and prints what a `why` takes beside a
`path data` of the same expression; then what a `check` of the longest list of nodes takes that fits a line with its expression. The gate
doesn't run this.

    bench_walks.py [PROGRAM]

PROGRAM is run instead of bin/pathindex. Times are processor times, the best of some turns, and differences of whole processes.
"""
import os
import pathlib
import subprocess
import sys
import tempfile

ROOT = pathlib.Path(__file__).resolve().parent.parent
MAKE = ROOT / "tools" / "make_triples.py"
KINDS = "dag", "cyclic"
TRIPLES = 200_000
EXPRESSIONS = "<http://e/p0>/iri/<http://e/p1>", "<http://e/p0>//literal"
TURNS = 3
ASKED = 100  # so many queries, and so many answers that are asked about, spread over all
LINE_BYTES = 1_048_576  # the limit on a line of a script
CHECKED = "(a/b)*/_?"
FLAGS = ["--k", "0", "--without-one", "--without-fb"]


def seconds_of(command):
    child = subprocess.Popen(command, stdout=subprocess.DEVNULL)
    _, status, usage = os.wait4(child.pid, 0)
    if os.waitstatus_to_exitcode(status) != 0:
        sys.exit(f"bench_walks.py: {command} ended with the status {os.waitstatus_to_exitcode(status)}")
    return usage.ru_utime + usage.ru_stime


class Bench:
    """A folder with a script of each name, which are run over one graph file."""

    def __init__(self, program, folder, words):
        self.program, self.folder, self.words = program, folder, [*words, *FLAGS]
        self.names = []

    def put(self, name, lines):
        with open(os.path.join(self.folder, name), "w", encoding="ascii") as script:
            script.writelines(line + "\n" for line in lines)
        self.names.append(name)

    def command(self, name):
        return [self.program, os.path.join(self.folder, name), *self.words]

    def output(self, name):
        return subprocess.run(self.command(name), capture_output=True, text=True, check=True).stdout.splitlines()

    def best(self):
        """Of each script the least seconds; they are run in turns."""
        taken = {name: [] for name in self.names}
        for _ in range(TURNS):
            for name in self.names:
                taken[name].append(seconds_of(self.command(name)))
        return {name: min(seconds) for name, seconds in taken.items()}


def spread(items, count):
    """So many of the items, evenly spread, or all."""
    step = max(1, len(items) // count)
    return items[::step][:count]


def measure_why(program, folder, kind):
    text = os.path.join(folder, f"{kind}.nt")
    with open(text, "wb") as out:
        subprocess.run([sys.executable, MAKE, str(TRIPLES), "1", kind], stdout=out, check=True)
    for expression in EXPRESSIONS:
        bench = Bench(program, folder, ["--graph", text])
        bench.put("empty", [])
        bench.put("path", [f"path data {expression}"] * ASKED)
        answers = bench.output("path")[1].split()
        asked = spread(answers, ASKED)
        bench.put("why", [f"why {node} {expression}" for node in asked])
        walks = [int(line.split()[1]) for line in bench.output("why") if line.startswith("walk ")]
        taken = bench.best()
        path, why = (
            (taken[name] - taken["empty"]) * 1000 / count for name, count in (("path", ASKED), ("why", len(asked)))
        )
        print(
            f"{kind:<8}{expression:<34}{len(answers):>9,} answers{path:>10.3f} ms a path{why:>10.3f} ms a why"
            f"{max(walks):>8,} nodes at most"
        )


def measure_check(program, folder):
    period = 10
    ring = [f"node {label}" for label in "ab" * (period // 2)]
    ring += [f"link n{n} n{(n + 1) % period}" for n in range(period)]
    # each name takes two bytes, with a comma or the blank behind it
    count = (LINE_BYTES - len(f"check {CHECKED}")) // 3
    nodes = [f"n{i % period}" for i in range(count)]
    bench = Bench(program, folder, [])
    bench.put("empty", ring)
    bench.put("check", ring + [f"check {','.join(nodes)} {CHECKED}"])
    said = bench.output("check")[-1]
    taken = bench.best()
    print(f"check of {len(nodes):,} nodes: {said}, {(taken['check'] - taken['empty']) * 1000:.1f} ms")


def main():
    program = sys.argv[1] if len(sys.argv) > 1 else str(ROOT / "bin" / "pathindex")
    if not os.access(program, os.X_OK):
        sys.exit(f"bench_walks.py: {program} is missing; make run builds it")
    with tempfile.TemporaryDirectory() as folder:
        for kind in KINDS:
            measure_why(program, folder, kind)
        measure_check(program, folder)


if __name__ == "__main__":
    main()
