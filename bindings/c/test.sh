#!/bin/sh
# Compiles the example against libboundary.a, as C and as C++ where there is a compiler, and compares what it prints.
#
#     bindings/c/test.sh [FOLDER]     FOLDER has libboundary.a (target/staticlib unless it is given)
here=$(cd "$(dirname "$0")" && pwd) || exit 1
lib=${1:-${MOSSLADDER_LIB:-$here/../../target/staticlib}}/libboundary.a
[ -f "$lib" ] || { echo "$lib is not there: run 'bindings/staticlib.sh' first" >&2; exit 1; }
command -v cc >/dev/null || { echo "no C compiler: nothing was tested"; exit 0; }
work=$(mktemp -d) || exit 1
trap 'rm -rf "$work"' EXIT
cc -std=c99 -Wall -Wextra -pedantic -Werror -I"$here" "$here/example.c" "$lib" -o "$work/example" || exit 1
# a thread of Rust's has as much stack
(ulimit -s 2048 && "$work/example" >"$work/out") && diff "$here/example.out" "$work/out" || exit 1
if command -v c++ >/dev/null; then
    printf '#include "mossladder.h"\n' >"$work/header.cc"
    c++ -Wall -Wextra -pedantic -Werror -I"$here" -c "$work/header.cc" -o "$work/header.o" || exit 1
fi
echo "the C example prints what it should"
