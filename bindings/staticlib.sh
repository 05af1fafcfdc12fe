#!/bin/sh
# Proves the library and writes target/staticlib/libboundary.a, which C and Rust programs link (x86-64).
top=$(cd "$(dirname "$0")/.." && pwd) || exit 1
(cd "$top/crates/boundary_c" && rt lib) || exit 1
mkdir -p "$top/target/staticlib" && cp "$top/crates/boundary_c/out/libboundary_c.a" "$top/target/staticlib/libboundary.a"
