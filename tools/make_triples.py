#!/usr/bin/env python3
"""Writes generated triples to standard output.

    make_triples.py COUNT [SEED [KIND]]

KIND is `dag` where none is given.

dag     no walk comes back to its beginning
cyclic  the same, but half of the edges to a literal go back to a subject
deep    a chain of all subjects, and then literals at random ones

A state of 64 bits starts as the seed (1 where none is given). A draw below m sets the state x to
x * 6364136223846793005 + 1442695040888963407 modulo 2^64, and gives (x // 2^33) modulo m. Each line draws A,
P and C, and B is 8 * A + 1 + C: it is an edge from A to B where B is below the count of subjects, else a
literal is drawn. There is a fifth as many subjects as lines, and a fortieth as many literals.
"""
import sys

MODULUS = 1 << 64


def main():
    if len(sys.argv) not in (2, 3, 4) or sys.argv[3:] not in ([], ["dag"], ["cyclic"], ["deep"]):
        sys.exit(__doc__)
    count = int(sys.argv[1])
    state = int(sys.argv[2]) if len(sys.argv) > 2 else 1
    kind = sys.argv[3] if len(sys.argv) == 4 else "dag"
    subjects = max(1, count // 5)
    literals = max(1, count // 40)

    def draw(m):
        nonlocal state
        state = (state * 6364136223846793005 + 1442695040888963407) % MODULUS
        return (state >> 33) % m

    def subject(a, p, b):
        return f"<http://e/s{a}> <http://e/p{p}> <http://e/s{b}> .\n"

    def literal(a, p, v):
        return f'<http://e/s{a}> <http://e/p{p}> "v{v}" .\n'

    lines = []
    if kind == "deep":
        lines = [subject(b - 1, 0, b) for b in range(1, subjects)]
    while len(lines) < count:
        a, p = draw(subjects), draw(8)
        if kind == "deep":
            lines.append(literal(a, p, draw(literals)))
            continue
        b = 8 * a + 1 + draw(16)
        v = draw(literals) if b >= subjects else 0
        if b < subjects or kind == "cyclic" and v % 2 == 0:
            lines.append(subject(a, p, b % subjects))
        else:
            lines.append(literal(a, p, v))
    sys.stdout.write("".join(lines))


if __name__ == "__main__":
    main()
