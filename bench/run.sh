#!/usr/bin/env bash
# Times the library and its peers in one run: bench/run.sh [SECONDS], about so many for each figure (1).
set -euo pipefail
cd "$(dirname "$0")/.."
. examples/x86-64.sh
out=target/bench
mkdir -p $out
need "$CXX" "g++ (on Arm: g++-x86-64-linux-gnu)"

# has HEADER LIBRARY: whether a program can be built with it
has() {
    printf '#include <%s>\nint main() {}\n' "$1" >$out/probe.cpp
    $CXX -std=c++17 $LINK $out/probe.cpp -o $out/probe $2 2>/dev/null
}

with="" libraries=""
sources="bench/main.cpp bench/load.cpp bench/ours.cpp bench/rapid.cpp"
if has simdjson.h -lsimdjson; then
    with="$with -DWITH_SIMDJSON" sources="$sources bench/simd.cpp" libraries="$libraries -lsimdjson"
fi
if has yajl/yajl_tree.h -lyajl_s; then
    with="$with -DWITH_YAJL" sources="$sources bench/yajl.cpp" libraries="$libraries -lyajl_s"
fi
if ! has rapidjson/document.h "" || [ -z "$with" ]; then
    echo "peers are missing; Debian: apt-get install rapidjson-dev libsimdjson-dev libyajl-dev" >&2
    echo "(on Arm: dpkg --add-architecture amd64, then rapidjson-dev libyajl-dev:amd64)" >&2
    exit 2
fi

python3 bench/make.py $out/cases
$CXX -std=c++17 -O3 -Wall -Wextra $with $LINK $sources -L "$LIB" -lcapi $libraries -o $out/bench

echo machine: $(uname -m) $(sed -n 's/^model name[^:]*: *//p' /proc/cpuinfo | sort -u)
echo "built by: $($CXX --version | head -n 1)"
[ -z "$RUN" ] || echo "run through $RUN: its times say nothing of a machine, only ratios can be compared"
$RUN $out/bench $out/cases "${1:-1}"
