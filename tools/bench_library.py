#!/usr/bin/env python3
"""Prints what the library takes beside the program: a load with its builds, and 10,000 queries through the A(2)-index, whose answers the
library copies out and the program writes to nowhere; then what an empty call takes, and the memory of both. The gate doesn't run this.

    bench_library.py [PROGRAM]

PROGRAM is run instead of bin/pathindex. It needs bin/libpathindex.a, which `make library` builds, and `cc`. Times are processor times,
the best of some turns.
"""
import os
import pathlib
import subprocess
import sys
import tempfile

ROOT = pathlib.Path(__file__).resolve().parent.parent
TRIPLES = 200_000
QUERIES = 10_000
QUERY = "path a2 <http://e/p0>/iri/<http://e/p1>\n"
TURNS = 5


def run(command):
    """The seconds, the kilobytes at most and the output of a command."""
    with tempfile.TemporaryFile() as output:
        child = subprocess.Popen(command, stdout=output)
        _, status, usage = os.wait4(child.pid, 0)
        if os.waitstatus_to_exitcode(status) != 0:
            sys.exit(f"bench_library.py: {command} ended with the status {os.waitstatus_to_exitcode(status)}")
        output.seek(0)
        return usage.ru_utime + usage.ru_stime, usage.ru_maxrss, output.read(1000).decode()


def silent(command):
    child = subprocess.Popen(command, stdout=subprocess.DEVNULL)
    _, _, usage = os.wait4(child.pid, 0)
    return usage.ru_utime + usage.ru_stime, usage.ru_maxrss


def main():
    program = sys.argv[1] if len(sys.argv) > 1 else str(ROOT / "bin" / "pathindex")
    with tempfile.TemporaryDirectory() as folder:
        path = pathlib.Path(folder)
        with open(path / "dag.nt", "wb") as out:
            subprocess.run([sys.executable, ROOT / "tools" / "make_triples.py", str(TRIPLES)], stdout=out, check=True)
        (path / "empty").write_text("")
        (path / "queries").write_text(QUERY * QUERIES)
        subprocess.run(
            ["cc", "-std=c99", "-O2", f"-I{ROOT / 'include'}", ROOT / "library" / "bench.c", ROOT / "bin" / "libpathindex.a", "-o", path / "bench"],
            check=True,
        )
        loads, asked, called = [], [], []
        for _ in range(TURNS):
            loads.append(silent([program, path / "empty", "--graph", path / "dag.nt"]))
            asked.append(silent([program, path / "queries", "--graph", path / "dag.nt"]))
            called.append(run([path / "bench", path / "dag.nt", str(QUERIES)]))
        load, queries = min(loads)[0], min(asked)[0] - min(loads)[0]
        print(f"program: load and builds {load:.2f} s, {min(m for _, m in loads) // 1024} MB; {QUERIES} queries {queries:.2f} s")
        print(f"library: {min(called)[2].strip()}; {min(m for _, m, _ in called) // 1024} MB, {len((path / 'dag.nt').read_bytes()) >> 20} of them the caller's copy of the file")


main()
