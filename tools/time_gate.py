#!/usr/bin/env python3
"""Runs a command, as rt ci, and writes the processor seconds of each crate's proof, tests and must-fail edits: time_gate.py TIMES COMMAND..

TIMES is a file of lines 'crate proof tests edits'; tools/measure_house.py prints it as a table. The command's processes of rattle are looked at twice a
second, so what each takes behind the last look is missing. The status is that of the command.
"""
import collections
import os
import pathlib
import subprocess
import sys
import time

KINDS = ["proof", "tests", "edits"]
TICKS = os.sysconf("SC_CLK_TCK")


def rattle_processes(session):
    """Yields of each process of rattle in the session the crate, the kind of work, its identity and its seconds so far."""
    for folder in pathlib.Path("/proc").iterdir():
        if not folder.name.isdigit():
            continue
        try:
            fields = (folder / "stat").read_text().rpartition(")")[2].split()
            words = (folder / "cmdline").read_text(errors="replace").split("\0")
            if int(fields[3]) != session or "--crate-name" not in words or not words[0].endswith("rattle"):
                continue
            is_edit = "/rt-edit-" in os.readlink(folder / "cwd")
        except OSError:
            continue
        kind = "edits" if is_edit else "tests" if "--test" in words else "proof"
        crate = words[words.index("--crate-name") + 1]
        yield crate, kind, (folder.name, fields[19]), (int(fields[11]) + int(fields[12])) / TICKS


def main():
    if len(sys.argv) < 3:
        sys.exit("usage: time_gate.py TIMES COMMAND..")
    taken = {}
    started = subprocess.Popen(sys.argv[2:], start_new_session=True)
    while started.poll() is None:
        for crate, kind, process, seconds in rattle_processes(started.pid):
            taken[crate, kind, process] = seconds
        time.sleep(0.5)
    sums = collections.Counter()
    for (crate, kind, _), seconds in taken.items():
        sums[crate, kind] += seconds
    crates = dict.fromkeys(crate for crate, _, _ in taken)
    lines = [" ".join([crate, *(f"{sums[crate, kind]:.0f}" for kind in KINDS)]) for crate in crates]
    pathlib.Path(sys.argv[1]).write_text("".join(line + "\n" for line in lines))
    sys.exit(started.returncode)


if __name__ == "__main__":
    main()
