#!/usr/bin/env bash
# Tests the library in bin/, as `make library` builds it: callers in C and in Python write byte for byte what PROGRAM, or bin/pathindex,
# writes for examples/walk.script and for `save`, with no fault and no leak, also where one allocation after another fails. What isn't
# on the path is named, and what needs it is left out.
# Call: tools/test_library.sh [PROGRAM]
set -eu
program=$(realpath "${1:-$(dirname "$0")/../bin/pathindex}")
cd "$(dirname "$0")/.."
work=$(mktemp -d)
trap 'rm -rf "$work"' EXIT
strict=(-std=c99 -Wall -Wextra -Werror -pedantic -g -Iinclude)

# lacks COMMAND PACKAGE WHAT: whether the command isn't there, which is then said
lacks() {
    ! command -v "$1" >/dev/null || return 1
    echo "left out: $3, since $1 isn't on the path; apt-get install $2 brings it"
}

fail() {
    echo "FAILED $*"
    exit 1
}

# same NAME WANTED COMMAND..: the command writes what the program does, and ends with status 1, or with 0 where it has none
same() {
    local name=$1 wanted=$2 status=0
    shift 2
    "$@" >"$work/written" 2>"$work/errors" || status=$?
    cmp -s "$wanted" "$work/written" || { diff -u "$wanted" "$work/written" || true; cat "$work/errors"; fail "$name: it writes something else"; }
    [ "$status" -le 1 ] || { cat "$work/errors"; fail "$name: status $status"; }
    echo "ok     $name"
}

# ends_well AT COMMAND WANTED STATUS: whether the command ends well if allocation AT fails: as the whole run, or with status 7 behind a
# prefix of what that writes
ends_well() {
    local status=0
    FAIL_AT=$1 "$2" >"$work/written" 2>"$work/errors" || status=$?
    if [ "$status" = "$4" ]; then cmp -s "$3" "$work/written" && return; fi
    [ "$status" = 7 ] && cmp -s -n "$(stat -c %s "$work/written")" "$3" "$work/written"
}

# each_fails NAME WANTED STATUS: a caller in C ends well whichever allocation fails
each_fails() {
    local name=$1 wanted=$2 status=$3 count i
    cc "${strict[@]}" -fsanitize=address,undefined "library/$name" library/failing.c bin/libpathindex.a \
        -Wl,--wrap=malloc,--wrap=realloc -o "$work/failing"
    COUNT_FILE="$work/count" same "$name under AddressSanitizer" "$wanted" "$work/failing"
    count=$(cat "$work/count")
    for ((i = 1; i <= count; i++)); do
        ends_well "$i" "$work/failing" "$wanted" "$status" || { cat "$work/errors"; fail "$name: allocation $i fails badly"; }
    done
    echo "ok     $name with each of $count allocations failing, under AddressSanitizer"
    ! lacks valgrind valgrind "$name with failing allocations under valgrind" || return 0
    cc "${strict[@]}" "library/$name" library/failing.c bin/libpathindex.a -Wl,--wrap=malloc,--wrap=realloc -o "$work/plain"
    printf '#!/bin/sh\nexec valgrind -q --leak-check=full --show-leak-kinds=all --error-exitcode=9 %s\n' "$work/plain" >"$work/watched"
    chmod +x "$work/watched"
    for ((i = 1; i <= count; i += 25)); do
        ends_well "$i" "$work/watched" "$wanted" "$status" || { cat "$work/errors"; fail "$name: allocation $i fails badly under valgrind"; }
    done
    echo "ok     $name with every 25th of them failing, under valgrind"
}

echo save >"$work/save.script"
"$program" "$work/save.script" --graph examples/foaf.nt >"$work/saved"
"$program" --check "$work/saved" >"$work/fits" || fail 'the file that the program saves'

if ! lacks cc gcc 'callers in C'; then
    exported=$(nm -D --defined-only bin/libpathindex.so | awk '{print $3}' | sort)
    declared=$(grep -o 'pathindex_[a-z_]*(' include/pathindex.h | tr -d '(' | sort -u)
    [ "$exported" = "$declared" ] || fail "libpathindex.so exports something else than include/pathindex.h declares: $exported"
    cc "${strict[@]}" library/walk.c bin/libpathindex.a -o "$work/walk"
    same 'walk.c over libpathindex.a' examples/walk.out "$work/walk"
    cc "${strict[@]}" library/walk.c -Lbin -lpathindex -Wl,-rpath,"$PWD/bin" -o "$work/shared"
    same 'walk.c over libpathindex.so' examples/walk.out "$work/shared"
    each_fails walk.c examples/walk.out 1
    each_fails save.c "$work/saved" 0
    lacks valgrind valgrind 'walk.c under valgrind' || same 'walk.c under valgrind' examples/walk.out \
        valgrind -q --leak-check=full --show-leak-kinds=all --error-exitcode=9 "$work/walk"
fi
if ! lacks g++ g++ 'the header in C++'; then
    g++ -std=c++11 -Wall -Wextra -Werror -Iinclude -x c++ -fsyntax-only include/pathindex.h library/walk.c library/save.c
    echo 'ok     the header in C++'
fi
if ! lacks python3 python3 'callers in Python'; then
    export PATHINDEX_LIBRARY=$PWD/bin/libpathindex.so PYTHONPATH=$PWD/python
    same 'walk.py' examples/walk.out python3 python/walk.py
    same 'save in Python' "$work/saved" python3 -c 'import pathindex; print(pathindex.Pathindex.from_file("examples/foaf.nt").save_text(), end="")'
fi
