#!/usr/bin/env python3
"""Print the graph file of a seed, or the script of a seed for a graph of so many nodes.

    workload.py SEED          the graph file
    workload.py SEED NODES    the script

It shares no code with the program: `docs/FORMATS.md` says how the two texts are made, and this page follows it."""
import sys

GRAPH_LINES, STEPS = 20000, 500


class Draws:
    def __init__(self, seed):
        self.state = seed

    def below(self, bound):
        self.state = (self.state * 6364136223846793005 + 1442695040888963407) % 2 ** 64
        return (self.state // 2 ** 33) % bound


def graph_file(draws):
    for _ in range(GRAPH_LINES):
        subject, predicate, step = draws.below(4000), draws.below(8), draws.below(16)
        target = 8 * subject + 1 + step
        if target < 4000:
            thing = f"<http://e/s{target}>"
        else:
            thing = f'"v{draws.below(500)}"'
        yield f"<http://e/s{subject}> <http://e/p{predicate}> {thing} ."


def script(draws, nodes):
    for new in range(nodes, nodes + STEPS):
        label, first, second = draws.below(4), draws.below(nodes), draws.below(nodes)
        yield f"node g{label}"
        yield f"link n{new} n{first}"
        yield f"link n{new} n{second}"
        yield f"unlink n{new} n{first}"
    yield "sizes"
    for command, query in [
        ("path", "<http://e/p0>/iri/<http://e/p1>"),
        ("path", "g0//literal"),
        ("branch", "iri[/<http://e/p0> and not(/<http://e/p1>)]"),
    ]:
        for via in ["data", "a2", "one", "fb"]:
            yield f"{command} {via} {query}"


def main():
    draws = Draws(int(sys.argv[1]))
    lines = list(graph_file(draws))
    if len(sys.argv) > 2:
        lines = list(script(draws, int(sys.argv[2])))
    sys.stdout.write("".join(line + "\n" for line in lines))


if __name__ == "__main__":
    main()
