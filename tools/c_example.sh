#!/usr/bin/env bash
# Builds the static library of sheet_c, compiles examples/c/example.c with it, runs it on the sample file, and compares what it prints
# with examples/c/expected. Exit 0 only if they are the same.
set -u
cd "$(dirname "$0")/.." || exit 1
mkdir -p target || exit 1
scratch=$(mktemp -d "$PWD/target/c_example.XXXXXX") || exit 1
trap 'rm -rf "$scratch"' EXIT

(cd crates/sheet_c && rt lib) >"$scratch/lib.log" 2>&1 || { cat "$scratch/lib.log"; echo "the library was not built"; exit 1; }

# The calls of malloc, realloc and free that the library makes stand in libc/c/heap.c, which the kit ships compiled.
heap=$(dirname "$(readlink -f "$(command -v rt)")")/../c/liblibc_c.a
[ -f "$heap" ] || { echo "no $heap"; exit 1; }

"${CC:-cc}" -Wall -Wextra -Werror -std=c11 -O2 -Iinclude -o "$scratch/example" examples/c/example.c \
    crates/sheet_c/out/libsheet_c.a "$heap" || { echo "the example was not compiled"; exit 1; }

timeout 60 "$scratch/example" samples/section.one >"$scratch/printed" || { echo "the example failed: exit $?"; exit 1; }
if ! diff "$scratch/printed" examples/c/expected; then
    echo "the example prints something else than examples/c/expected"
    exit 1
fi
echo "the example prints what is expected of it"
