#!/usr/bin/env python3
"""Runs the program with one allocation after another failing.

fail_allocations.py PROGRAM [--at-once COUNT] [--sample COUNT | --powers] -- WORD..

The program is run with these words, first as it is, and its allocations are counted. Then it is run once for each of them, which
finds no memory; with --sample for so many of them, spread evenly, and with --powers for those whose number, counted from 1, is a
power of two. Each run must end with the status 7 and a prefix of what the first one wrote, or just as the first one did: a table that
can't grow far may grow less. --at-once says how many runs go on at a time, 4 where it isn't given. The C compiler `cc` makes the
allocator that fails, from failing_malloc.c.
"""
import argparse
import concurrent.futures
import os
import pathlib
import subprocess
import sys
import tempfile

ALLOCATOR = pathlib.Path(__file__).resolve().parent / "failing_malloc.c"
NO_MEMORY = 7
# the statuses of a whole run
ENDINGS = 0, 1, 4


def run(command, library, **settings):
    """The status and the output of the program over the allocator with these settings."""
    done = subprocess.run(command, env=os.environ | {"LD_PRELOAD": library} | settings, stdout=subprocess.PIPE, stderr=subprocess.DEVNULL)
    return done.returncode, done.stdout


def fails_well(whole, failing, status, output):
    """Whether the run broke off, and False where it is whole; a run that is neither ends the tool."""
    if (status, output) == whole:
        return False
    if status == NO_MEMORY and whole[1].startswith(output):
        return True
    sys.exit(f"fail_allocations.py: allocation {failing} failed: status {status}, output {output!r}")


def chosen_numbers(count, given):
    """The numbers of the allocations that fail in turn, of so many."""
    if given.powers:
        return [1 << i for i in range(count.bit_length())]
    tried = min(given.sample or count, count)
    return [1 + i * count // tried for i in range(tried)]


def main():
    parser = argparse.ArgumentParser(description="Runs the program with one allocation after another failing.")
    parser.add_argument("program", type=pathlib.Path)
    parser.add_argument("--at-once", type=int, default=4, metavar="COUNT")
    chosen = parser.add_mutually_exclusive_group()
    chosen.add_argument("--sample", type=int, metavar="COUNT")
    chosen.add_argument("--powers", action="store_true")
    parser.add_argument("words", nargs="+")
    given = parser.parse_args()
    command = [str(given.program.resolve()), *given.words]
    with tempfile.TemporaryDirectory() as folder:
        library, counted = f"{folder}/failing.so", f"{folder}/count"
        subprocess.run(["cc", "-O2", "-shared", "-fPIC", "-o", library, ALLOCATOR], check=True)
        whole = run(command, library, COUNT_FILE=counted)
        if whole[0] not in ENDINGS or not whole[1]:
            sys.exit(f"fail_allocations.py: where no allocation fails, the run ends with {whole[0]} and {whole[1]!r}")
        count = int(pathlib.Path(counted).read_text())
        numbers = chosen_numbers(count, given)
        with concurrent.futures.ThreadPoolExecutor(given.at_once) as pool:
            runs = pool.map(lambda n: run(command, library, FAIL_AT=str(n)), numbers)
            failed = sum(fails_well(whole, n, *ended) for n, ended in zip(numbers, runs))
    print(f"{count} allocations, {len(numbers)} of them failed in turn: {failed} runs ended with the status 7 and a prefix, the others whole")


if __name__ == "__main__":
    main()
