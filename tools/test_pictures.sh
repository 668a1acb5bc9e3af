#!/usr/bin/env bash
# Has PROGRAM, or bin/pathindex_dot, draw each graph file of examples/ and each of its indexes, and Graphviz read what it writes. Without
# Graphviz only the statuses are looked at, and that is said.
# Call: tools/test_pictures.sh [PROGRAM]
set -eu
program=$(realpath "${1:-$(dirname "$0")/../bin/pathindex_dot}")
cd "$(dirname "$0")/.."
work=$(mktemp -d)
trap 'rm -rf "$work"' EXIT

fail() {
    echo "FAILED $*"
    exit 1
}

# ends WANTED WORD..: the program ends with that status
ends() {
    local wanted=$1 status=0
    shift
    "$program" "$@" >"$work/picture.dot" 2>"$work/errors" || status=$?
    [ "$status" = "$wanted" ] || { cat "$work/errors"; fail "pathindex_dot $*: status $status instead of $wanted"; }
}

reader=(dot -Tsvg)
if ! command -v dot >/dev/null; then
    reader=(cat)
    echo "left out: Graphviz, since dot isn't on the path; apt-get install graphviz brings it"
fi
for graph in examples/*.nt; do
    [ "$graph" != examples/broken.nt ] || continue
    for index in data a0 a1 a2 one fb b1; do
        ends 0 "$graph" --graph-of "$index"
        timeout 60 "${reader[@]}" "$work/picture.dot" >"$work/picture.svg" || fail "$graph --graph-of $index: ${reader[*]} doesn't take it"
    done
    echo "ok     pictures of $graph"
done
ends 0 examples/foaf.nt --blocks 3 --members 1
ends 2 examples/foaf.nt --graph-of a9
ends 3 examples/broken.nt
ends 5 examples/none.nt
echo 'ok     statuses of pathindex_dot'
