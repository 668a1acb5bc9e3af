#!/usr/bin/env bash
# Runs each script of examples/ on the program, with the words of NAME.words behind its name where there is such a
# file, one a line, and checks each NAME.index there. Compares what it writes with NAME.out, and its exit status with
# NAME.status, which is 0 where there is no such file.
set -eu
cd "$(dirname "$0")/.."
program=${1:?usage: tools/compare_examples.sh PROGRAM}
[ -x "$program" ] || { echo "$program: there is no such program" >&2; exit 1; }
written=$(mktemp)
trap 'rm -f "$written"' EXIT
failed=0

# compare NAME STATUS WORD..
compare() {
    local name=$1 wanted=$2 status=0
    shift 2
    "$program" "$@" >"$written" || status=$?
    if ! diff -u "$name.out" "$written"; then
        echo "FAILED $*: it writes something else"
        failed=1
    elif [ "$status" != "$wanted" ]; then
        echo "FAILED $*: the status is $status, not $wanted"
        failed=1
    else
        echo "ok     $* (status $status)"
    fi
}

# status_of NAME
status_of() {
    if [ -f "$1.status" ]; then cat "$1.status"; else echo 0; fi
}

for script in examples/*.script; do
    name=${script%.script}
    words=()
    [ ! -f "$name.words" ] || mapfile -t words <"$name.words"
    compare "$name" "$(status_of "$name")" "$script" "${words[@]}"
done
for file in examples/*.index; do
    name=${file%.index}
    compare "$name" "$(status_of "$name")" --check "$file"
done
exit "$failed"
