#!/usr/bin/env python3
"""The commands of examples/walk.script by pathindex.py, over the graph of a file. It writes what the program writes for that script."""
import sys

from pathindex import NoNode, Pathindex

KNOWS, NAME, AGE = (f"<http://xmlns.com/foaf/0.1/{word}>" for word in ("knows", "name", "age"))
KNOWN = f"{KNOWS}//literal"
AGES = f"iri/({KNOWS}/(iri|blank))*/{AGE}/literal"
AGELESS = f"iri[/{KNOWS} and not(/{AGE})]"


def show(nodes):
    print(*(f"n{node}" for node in nodes))


def ask(answer):
    found = "" if answer.how == "graph" else f" candidates {answer.candidates} {answer.how}"
    print(f"answers {len(answer)}{found}")
    if answer:
        show(answer)


def done(call, *arguments):
    try:
        call(*arguments)
        print("ok")
    except NoNode:
        print("refused no-node")


def main():
    with Pathindex.from_file(sys.argv[1] if len(sys.argv) > 1 else "examples/foaf.nt") as graph:
        ask(graph.path(f"{KNOWS}/iri/{NAME}/literal"))
        ask(graph.path(KNOWN))
        walk = graph.why(21, KNOWN)
        print(f"walk {len(walk)}")
        show(walk)
        assert graph.check(walk, KNOWN) and not graph.check(walk[1:], f"iri/{KNOWS}")
        ask(graph.path(AGES))
        ask(graph.path(KNOWN, via="a1"))
        ask(graph.path(AGES, via="one"))
        ask(graph.branch(AGELESS, via="fb"))
        ask(graph.branch(AGELESS))
        print(graph.sizes_text(), end="")
        print(graph.extents_text("a0"), end="")
        done(graph.forget, "a")
        print(f"added n{graph.node('note')}")
        done(graph.link, 5, 22)
        ask(graph.path(f"{KNOWS}/note"))
        done(graph.link, 0, 99)
        done(graph.drop, 22)


if __name__ == "__main__":
    main()
