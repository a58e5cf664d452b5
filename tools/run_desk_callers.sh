#!/usr/bin/env bash
# Builds every caller of the desk's entry, in C, Rust and Python, runs each, and compares what it prints with desk_callers/expected. No part of the gate.
# It needs a C compiler, make, rustc and python3, and rt where libdesk.a is not there yet. DESK_LIB names another folder of libdesk.a.
set -eu
cd "$(dirname "$0")/.."
lib=$(realpath -m "${DESK_LIB:-target/staticlib}")
here=desk_callers
cases=crates/keysheet_cases
[ -f "$lib/libdesk.a" ] || bash tools/staticlib.sh desk

make -s -C "$here/c" DESK_LIB="$lib"
mkdir -p "$here/rust/target" "$here/python/target"
rustc --edition 2021 -L native="$lib" -o "$here/rust/target/desk" "$here/rust/desk.rs"
cc -shared -o "$here/python/target/libdesk.so" -Wl,--whole-archive "$lib/libdesk.a" -Wl,--no-whole-archive

# What a command prints, and its exit status.
status_of() { "$@" 2>&1; echo "status $?"; }

# The example; the place after its word; and a menu of a key of residues, a refusal and a file without a question, with one line that is no number.
run_desk() {
    desk=$here/c/target/desk
    status_of "$desk" examples/example.sheet
    status_of "$desk" --place 1 examples/example.sheet
    printf '1\n2\nthree\n3\n0\n' | status_of "$desk" examples/kind7.sheet "$cases/data/weight_4.sheet" "$cases/data/cut_4.sheet"
}

run_check_sheets() { status_of "$here/c/target/check_sheets" "$cases/stdout" "$cases"/data/*.sheet; }

run_rust() { status_of "$here/rust/target/desk"; }

run_python() { status_of python3 "$here/python/desk.py" "$here/python/target/libdesk.so"; }

# Runs a caller and compares with an expected text.
agree=0
differ=0
compare() {
    if (set +e; "run_$1") | diff -u --label "expected/$2.txt" --label "printed by $1" "$here/expected/$2.txt" -; then
        agree=$((agree + 1))
    else
        differ=$((differ + 1))
    fi
}

compare desk desk
compare check_sheets check_sheets
compare rust by_numbers
compare python by_numbers
echo "$agree callers agree"
[ "$differ" -eq 0 ]
