#!/usr/bin/env bash
# Builds the static library and both examples, runs them on examples/booking and compares with expected.txt.
set -euo pipefail
cd "$(dirname "$0")/.."
. examples/x86-64.sh
out=target/examples
mkdir -p $out

# has_expected LANGUAGE PROGRAM
has_expected() {
    $RUN "$2" examples/booking >"$out/$1.txt" || echo "$1: the program ended with status $?"
    diff -u examples/expected.txt "$out/$1.txt"
    echo "$1: as in examples/expected.txt"
}

$CC -std=c11 -O2 -Wall -Wextra -pedantic $LINK examples/c/*.c -L "$LIB" -lcapi -o $out/booking_c
has_expected C $out/booking_c

# the first rustc with the standard library for x86-64: the one on the path, or Debian's
for rustc in rustc /usr/bin/rustc; do
    std_found=$($rustc $RUST_TARGET --print target-libdir 2>/dev/null || true)
    ls "$std_found"/libstd-*.rlib >/dev/null 2>&1 && break
    rustc=
done
if [ -n "$rustc" ]; then
    $rustc --edition 2021 -O $RUST_TARGET -L "$LIB" examples/rust/main.rs -o $out/booking_rust
    has_expected Rust $out/booking_rust
else
    echo "Rust: not run: there is no rustc here with the standard library of x86_64-unknown-linux-gnu"
fi
