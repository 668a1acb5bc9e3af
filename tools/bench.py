#!/usr/bin/env python3
"""Runs bin/pathindex on generated scripts, and prints how fast it is and how much memory it holds.

Each script is generated into a temporary folder. Times are of the whole process; figures of memory below
20 MB may be this tool's own. The gate doesn't run this.

A script has at most 64 MiB, which is too little for as many nodes and links as the limits allow: the graph
here has half of both.
"""
import os
import pathlib
import subprocess
import sys
import tempfile
import time

ROOT = pathlib.Path(__file__).resolve().parent.parent
PROGRAM = ROOT / "bin" / "pathindex"
MAKE = ROOT / "tools" / "make_script.py"

# what is measured, the kind of script, and its count
CASES = [
    ("1,000,000 node lines", "nodes", 1_000_000),
    ("1,000,000 link lines over 4,000 nodes", "links", 1_000_000),
    ("2,097,152 node lines", "nodes", 2_097_152),
    ("1,048,576 nodes, 2,097,152 links", "graph", 1_048_576),
    ("1,000,000 links and unlinks over 4,000 nodes", "turns", 1_000_000),
    ("a node that loses 200,000 parents one by one", "hub", 200_000),
    ("20,000 nodes, 40,000 links, no query", "paths", 0),
    ("the same, and 200 queries of three labels", "paths", 200),
]


def generate(kind, count, script):
    with open(script, "wb") as out:
        subprocess.run([sys.executable, MAKE, kind, str(count)], stdout=out, check=True)


def measure(script):
    """Seconds, peak bytes of memory, and the exit status."""
    start = time.monotonic()
    child = subprocess.Popen([PROGRAM, script], stdout=subprocess.DEVNULL)
    _, status, usage = os.wait4(child.pid, 0)
    seconds = time.monotonic() - start
    child.returncode = os.waitstatus_to_exitcode(status)
    return seconds, usage.ru_maxrss * 1024, child.returncode


def count_lines(script):
    with open(script, "rb") as text:
        return sum(block.count(b"\n") for block in iter(lambda: text.read(1 << 20), b""))


def main():
    if not os.access(PROGRAM, os.X_OK):
        sys.exit("bench.py: bin/pathindex is missing; make run builds it")
    print(f"{'script':<44}{'lines':>10}{'MB':>8}{'seconds':>9}{'lines/s':>12}{'MB/s':>8}{'peak MB':>9}")
    with tempfile.TemporaryDirectory() as folder:
        for name, kind, count in CASES:
            script = os.path.join(folder, kind)
            generate(kind, count, script)
            size = os.path.getsize(script) / 1e6
            lines = count_lines(script)
            seconds, peak, status = measure(script)
            if status != 0:
                sys.exit(f"bench.py: {name} ended with the status {status}")
            print(
                f"{name:<44}{lines:>10,}{size:>8.1f}{seconds:>9.3f}{lines / seconds:>12,.0f}"
                f"{size / seconds:>8.1f}{peak / 1e6:>9.1f}"
            )


if __name__ == "__main__":
    main()
