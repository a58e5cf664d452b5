#!/usr/bin/env bash
# Proves and builds the static libraries of the names given, desk and beside, and copies each to where callers in C look for it:
# crates/NAME_c to target/staticlib/libNAME.a. It needs rt.
#   bash tools/staticlib.sh NAME..
set -eu
cd "$(dirname "$0")/.."
[ "$#" -gt 0 ] || { echo "usage: bash tools/staticlib.sh NAME..      (desk, beside)" >&2; exit 2; }
for name in "$@"; do
    [ -d "crates/${name}_c" ] || { echo "staticlib.sh: no crate ${name}_c: desk or beside is meant" >&2; exit 2; }
    (cd "crates/${name}_c" && rt lib)
    mkdir -p target/staticlib
    cp "crates/${name}_c/out/lib${name}_c.a" "target/staticlib/lib${name}.a"
done
