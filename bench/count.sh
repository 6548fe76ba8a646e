#!/usr/bin/env bash
# Counts the instructions of one call on each case, ours and rapidjson's alike, and prints their ratio: bench/count.sh.
# By valgrind on x86-64, by a plugin of qemu-user (counter.c) where the emulator runs the programs or valgrind is not there.
# The count is that of eleven calls less that of one, by ten: the same for the same library, whatever else the machine does.
# each: a text of many, read by one call under one type table; eleven texts less one, by ten.
set -euo pipefail
cd "$(dirname "$0")/.."
. examples/x86-64.sh
need "$CXX" "g++ (on Arm: g++-x86-64-linux-gnu)"
out=target/bench
mkdir -p $out/include
python3 bench/make.py $out/cases
if [ -f /usr/include/rapidjson/document.h ]; then
    ln -sfn /usr/include/rapidjson $out/include/rapidjson
else
    echo "rapidjson is missing; Debian: apt-get install rapidjson-dev" >&2
    exit 2
fi
$CXX -std=c++17 -O3 $LINK -isystem $out/include bench/once.cpp bench/ours.cpp bench/rapid.cpp bench/load.cpp -L "$LIB" -lcapi -o $out/once

if [ -z "$RUN" ] && command -v valgrind >/dev/null; then
    # total WHO NAME CALL TIMES
    total() {
        valgrind --tool=callgrind --callgrind-out-file=$out/counted $out/once $out/cases "$2" "$1" "$3" "$4" 2>/dev/null
        sed -n 's/^totals: //p' $out/counted
    }
else
    need qemu-x86_64 qemu-user
    gcc -shared -fPIC -O2 bench/counter.c -o $out/counter.so
    total() {
        qemu-x86_64 -plugin $out/counter.so,out=$out/counted $out/once $out/cases "$2" "$1" "$3" "$4" 2>/dev/null
        cat $out/counted
    }
fi

# counted WHO NAME CALL
counted() {
    echo $((($(total "$@" 11) - $(total "$@" 1)) / 10))
}

# a line for a call: ours, the peer's and their ratio, by the peer's call that does the same
line() {
    local ours peer
    ours=$(counted ours "$1" "$2")
    peer=$(counted rapidjson "$1" "$3")
    printf '%-12s %-6s %12d %12d %s.%02d\n' "$1" "$2" "$ours" "$peer" $((ours / peer)) $((ours * 100 / peer % 100))
}

printf '%-12s %-6s %12s %12s %s\n' case call ours rapidjson ratio
for name in booking options list-4800 manifest list-60000; do
    line $name read read
    line $name each read
    line $name write write
done
