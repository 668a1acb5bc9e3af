#!/usr/bin/env python3
"""Prints how long and how many things are in this repository: measure_house.py [TIMES], where TIMES is a file that tools/time_gate.py wrote.

The source lines over 160 bytes and the lines of definitions over 160 characters, indentation included and imports apart, the functions with
more than twelve clauses of their own, the words of README.md and docs/*.md, the must-fail edits and the longest source files; and, from TIMES, the table of what each crate takes of the processor.
"""
import pathlib
import re
import sys

ROOT = pathlib.Path(__file__).resolve().parent.parent
LONGEST, MOST_CLAUSES, MOST_EDITS, FILES = 160, 12, 3, 10
CLAUSE = re.compile(r"(requires|ensures)\b")
FUNCTION = re.compile(r"(?:pub(?:\([a-z]+\))? )?(?:unsafe )?(?:const )?fn (\w+)")


def sources():
    """Yields each source file with its path below crates/ and its lines."""
    for file in sorted(ROOT.glob("crates/*/src/**/*.rt")):
        yield str(file.relative_to(ROOT / "crates")), file.read_text().splitlines()


def definitions():
    """Yields the same of each file of definitions."""
    for file in sorted(ROOT.glob("crates/*/specs/**/*.antt")):
        yield str(file.relative_to(ROOT / "crates")), file.read_text().splitlines()


def show(title, rows):
    print(f"{title}: {len(rows)}")
    for row in rows:
        print(f"    {row}")


def clauses(lines):
    """Returns how many clauses each function has, by the line and the name of it."""
    counts, function = {}, None
    for number, line in enumerate(map(str.strip, lines), 1):
        if found := FUNCTION.match(line):
            function = number, found[1]
        elif CLAUSE.match(line) and function:
            counts[function] = counts.get(function, 0) + 1
    return counts


def show_contracts():
    long, many = [], []
    for path, lines in sources():
        sizes = [(number, len(line.encode())) for number, line in enumerate(lines, 1) if not line.startswith("ghost use")]
        long += [f"{path}:{number} {size}" for number, size in sizes if size > LONGEST]
        many += [f"{path}:{number} {name} {count}" for (number, name), count in clauses(lines).items() if count > MOST_CLAUSES]
    show(f"source lines over {LONGEST} bytes", long)
    show(f"functions with more than {MOST_CLAUSES} clauses", many)
    defined = [(path, number, line) for path, lines in definitions() for number, line in enumerate(lines, 1)]
    show(f"definition lines over {LONGEST} characters", [f"{path}:{number} {len(line)}" for path, number, line in defined
                                                          if len(line) > LONGEST and not re.match(r"(pub )?use ", line)])


def show_words():
    words = {page.relative_to(ROOT): len(page.read_text().split()) for page in [ROOT / "README.md", *sorted(ROOT.glob("docs/*.md"))]}
    show(f"words on README and docs/*.md; man pages are apart; {sum(words.values())} in all, pages", [f"{page} {count}" for page, count in words.items()])


def edits():
    return {folder.parent.name: len(list(folder.glob("*.edit"))) for folder in sorted(ROOT.glob("crates/*/must-fail"))}


def show_edits():
    counts = edits()
    many = [f"{crate} {count}" for crate, count in counts.items() if count > MOST_EDITS]
    show(f"crates with more than {MOST_EDITS} edits, of {sum(counts.values())} edits in {len(counts)} crates", many)


def show_files():
    files = sorted(((len(lines), path) for path, lines in sources()), reverse=True)
    show("longest source files", [f"{path} {count}" for count, path in files[:FILES]])


def show_times(file):
    rows = [line.split() for line in pathlib.Path(file).read_text().splitlines()]
    counts = edits()
    sums = [sum(int(row[column]) for row in rows) / 60 for column in (1, 2, 3)]
    print(f"minutes of processor: {sum(sums):.0f}, of which proofs {sums[0]:.0f}, tests {sums[1]:.0f}, edits {sums[2]:.0f}\n")
    print("| Crate | Proof | Tests | Edits | Their seconds |\n|---|---|---|---|---|")
    for crate, proof, tests, tried in rows:
        print(f"| `{crate}` | {proof} | {tests if int(tests) else ''} | {counts.get(crate, '')} | {tried if int(tried) else ''} |")


def main():
    if len(sys.argv) > 2:
        sys.exit("usage: measure_house.py [TIMES]")
    show_contracts()
    show_words()
    show_edits()
    show_files()
    if len(sys.argv) == 2:
        show_times(sys.argv[1])


if __name__ == "__main__":
    main()
