#!/usr/bin/env python3
"""Counts the triples of a generated file with the proved example_count, and has serdi read and write the
same file, in turns, and prints how fast each is. Times are processor times, user and system, the best of some turns. The gate
doesn't run this.
"""
import os
import pathlib
import resource
import shutil
import subprocess
import sys
import tempfile

ROOT = pathlib.Path(__file__).resolve().parent.parent
PROGRAM = ROOT / "crates" / "example_count" / "out" / "example_count"
MAKE = ROOT / "tools" / "make_triples.py"
COUNT = 200_000
TURNS = 5


def processor_seconds():
    """The processor time of the commands that have ended."""
    usage = resource.getrusage(resource.RUSAGE_CHILDREN)
    return usage.ru_utime + usage.ru_stime


def run(command, text, output):
    """The processor seconds that the command takes, and what it writes where that goes to a pipe."""
    with open(text, "rb") as source:
        start = processor_seconds()
        done = subprocess.run(command, stdin=source, stdout=output, check=True)
        return processor_seconds() - start, done.stdout


def main():
    if not os.access(PROGRAM, os.X_OK):
        sys.exit("bench_triples.py: example_count isn't built; `rt run` in crates/example_count builds it")
    if shutil.which("serdi") is None:
        sys.exit("bench_triples.py: serdi isn't there; `apt-get install serdi` installs it")
    with tempfile.TemporaryDirectory() as folder:
        text = os.path.join(folder, "triples.nt")
        with open(text, "wb") as out:
            subprocess.run([sys.executable, MAKE, str(COUNT)], stdout=out, check=True)
        size = os.path.getsize(text) / 1e6
        ours, theirs = [], []
        for _ in range(TURNS):
            taken, counted = run([PROGRAM], text, subprocess.PIPE)
            if counted.strip() != str(COUNT).encode():
                sys.exit(f"bench_triples.py: example_count wrote {counted!r} for {COUNT} triples")
            ours.append(taken)
            theirs.append(run(["serdi", "-b", text], text, subprocess.DEVNULL)[0])
    for name, times in (("example_count", ours), ("serdi -b", theirs)):
        print(f"{name:<16}{COUNT:>9} triples{size:>7.1f} MB{min(times):>7.2f} s{size / min(times):>8.0f} MB/s")
    print(f"example_count takes {min(ours) / min(theirs):.2f} times as long as serdi -b; the mark is 1.5")


if __name__ == "__main__":
    main()
