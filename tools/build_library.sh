#!/usr/bin/env bash
# Builds libpathindex.a and libpathindex.so from the archive of crates/pathindex_c, the kit's archive of its heap, and
# library/pathindex.c. From outside only the calls of include/pathindex.h are seen in them.
#     tools/build_library.sh ARCHIVE HEAP FOLDER
set -eu
archive=$(realpath "${1:?usage: tools/build_library.sh ARCHIVE HEAP FOLDER}")
heap=$(realpath "${2:?usage: tools/build_library.sh ARCHIVE HEAP FOLDER}")
folder=$(realpath "${3:?usage: tools/build_library.sh ARCHIVE HEAP FOLDER}")
cd "$(dirname "$0")/.."
parts=$(mktemp -d)
trap 'rm -rf "$parts"' EXIT
cc -std=c99 -Wall -Wextra -Werror -O2 -fPIC -Iinclude -c library/pathindex.c -o "$parts/calls.o"
ld -r -o "$parts/all.o" "$parts/calls.o" --whole-archive "$archive" "$heap"
# Each function begins at a line of the cache: where a short loop crosses one, some processors take twice as long for it.
objcopy --wildcard --keep-global-symbol='!pathindex_c_*' --keep-global-symbol='pathindex_*' --set-section-alignment '.text*=64' \
    "$parts/all.o" "$parts/pathindex.o"
rm -f "$folder/libpathindex.a"
ar rcs "$folder/libpathindex.a" "$parts/pathindex.o"
cc -shared -Wl,-soname,libpathindex.so -Wl,-z,defs -Wl,--gc-sections -o "$folder/libpathindex.so" "$parts/pathindex.o"
