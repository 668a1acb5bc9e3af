#!/usr/bin/env python3
"""Has bin/pathindex load generated graph files, and serdi read and write the same files, in turns, and prints how fast
each is and how much memory the load and serdi hold. Then it has the indexes of levels 0 to 2 kept and their sizes printed, and prints
what that takes above the load, and what a change takes while they are kept. The gate doesn't run this.

    bench_load.py [PROGRAM]

PROGRAM is run instead of bin/pathindex. No 1-index and no forward and backward index is kept; bench_indexes.py measures them. A
load is a run of an empty script that keeps the index of level 0 alone. Times are processor times, user and system, the best of some
turns, and of whole processes.
"""
import os
import pathlib
import shutil
import subprocess
import sys
import tempfile

ROOT = pathlib.Path(__file__).resolve().parent.parent
MAKE = ROOT / "tools" / "make_triples.py"
# how often each count of triples is measured
TURNS = {20_000: 15, 200_000: 15, 1_600_000: 5}
LOAD_MARK = 2.5
# megabytes, at the most triples
MEMORY_MARK = 450
# how many changes are made while indexes are kept
CHANGES = 4
# words that leave the other indexes out
ALONE = ["--without-one", "--without-fb"]
# by the count of triples
SIZES_MARKS = {200_000: 0.55, 1_600_000: 0.8}


def run(command):
    """The processor seconds that the command takes, and its peak megabytes of memory; below 20 they may be this tool's own."""
    child = subprocess.Popen(command, stdout=subprocess.DEVNULL)
    _, status, usage = os.wait4(child.pid, 0)
    child.returncode = os.waitstatus_to_exitcode(status)
    if child.returncode != 0:
        sys.exit(f"bench_load.py: {command} ended with the status {child.returncode}")
    return usage.ru_utime + usage.ru_stime, usage.ru_maxrss * 1024 / 1e6


def held(command):
    """The peak megabytes of memory of a command that holds less than this tool, as its status says while it runs."""
    child = subprocess.Popen(command, stdout=subprocess.DEVNULL)
    peak = 0
    while child.poll() is None:
        with open(f"/proc/{child.pid}/status") as status:
            peak = max([peak] + [int(line.split()[1]) for line in status if line.startswith("VmHWM:")])
    return peak * 1024 / 1e6


def best_of(commands, turns):
    """Of each command by its name the least seconds, and the most megabytes. They are run in turns."""
    taken = {name: [] for name in commands}
    for _ in range(turns):
        for name, command in commands.items():
            taken[name].append(run(command))
    return {name: (min(s for s, _ in runs), max(m for _, m in runs)) for name, runs in taken.items()}


def measure(program, folder, count):
    text = os.path.join(folder, f"graph{count}.nt")
    with open(text, "wb") as out:
        subprocess.run([sys.executable, MAKE, str(count)], stdout=out, check=True)
    taken = best_of({
        "load": [program, os.path.join(folder, "empty"), "--graph", text, "--k", "0", *ALONE],
        "sizes": [program, os.path.join(folder, "sizes"), "--graph", text, "--k", "2", *ALONE],
        "changes": [program, os.path.join(folder, "changes"), "--graph", text, "--k", "2", *ALONE],
        "serdi": ["serdi", "-b", text],
    }, TURNS[count])
    return os.path.getsize(text) / 1e6, taken, held(["serdi", "-b", text])


def write_script(folder, name, text):
    with open(os.path.join(folder, name), "w") as out:
        out.write(text)


def show(count, size, taken, serdi_peak):
    (load, peak), (sizes, sizes_peak), (serdi, _) = taken["load"], taken["sizes"], taken["serdi"]
    change = (taken["changes"][0] - sizes) / CHANGES
    print(f"{count:>9,} triples, {size:.1f} MB; serdi -b {serdi:.3f} s, {size / serdi:.0f} MB/s, peak {serdi_peak:.0f} MB")
    print(f"    load   {load:>7.3f} s, {count / load:>9,.0f} triples/s, {size / load:>5.1f} MB/s, peak {peak:.0f} MB")
    print(f"           {load / serdi:.2f} times as long as serdi -b; the mark is {LOAD_MARK}")
    if count == max(TURNS):
        print(f"           the mark of its memory is {MEMORY_MARK} MB")
    above = sizes - load
    mark = f"; the mark is {SIZES_MARKS[count]}" if count in SIZES_MARKS else ""
    print(f"    sizes  {above:>7.3f} s above the load, {above / serdi:.2f} times as long as serdi -b{mark}")
    print(f"           peak {sizes_peak:.0f} MB")
    print(f"    change {change * 1000:>7.1f} ms each, while they are kept", flush=True)


def main():
    if len(sys.argv) > 2:
        sys.exit(__doc__)
    program = pathlib.Path(sys.argv[1]).resolve() if len(sys.argv) == 2 else ROOT / "bin" / "pathindex"
    if not os.access(program, os.X_OK):
        sys.exit(f"bench_load.py: {program} is missing; make run builds bin/pathindex")
    if shutil.which("serdi") is None:
        sys.exit("bench_load.py: serdi isn't there; `apt-get install serdi` installs it")
    with tempfile.TemporaryDirectory() as folder:
        write_script(folder, "empty", "")
        write_script(folder, "sizes", "sizes\n")
        write_script(folder, "changes", "unlink n0 n1\nlink n0 n1\n" * (CHANGES // 2))
        for count in TURNS:
            show(count, *measure(program, folder, count))


if __name__ == "__main__":
    main()
