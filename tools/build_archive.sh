#!/usr/bin/env bash
# Proves crates/pathindex_c over the libraries that `rt ci` has proved and left in their out/, and builds its archive.
#     tools/build_archive.sh ARCHIVE
set -eu
archive=$(realpath -m "${1:?usage: tools/build_archive.sh ARCHIVE}")
kit=$(realpath "$(dirname "$(realpath "$(command -v rt)")")/..")
cd "$(dirname "$0")/../crates/pathindex_c"
words=(--crate-name pathindex_c --crate-type staticlib --extern "pathindex_calls=../pathindex_calls/out/rlib/pathindex_calls.rlib")
for name in std std_heap; do
    words+=(--extern "$name=$kit/rlibs/$name.rlib")
done
for folder in "$kit/rlibs" ../*/out/rlib; do
    words+=(-L "dependency=$folder")
done
"$kit/bin/rattle" build "${words[@]}" --antt-project "$kit/rattle/logic/antt-project.json" --logic-built "$kit/logic_built" \
    --toolchain "$kit/toolchain" --backend llvm -o "$archive" src/lib.rt
