#!/usr/bin/env bash
# Measures the stack that one read and one write take, at 32 open brackets and 64 members to a type: bench/stack.sh.
set -euo pipefail
cd "$(dirname "$0")/.."
. examples/x86-64.sh
need "$CXX" "g++ (on Arm: g++-x86-64-linux-gnu)"
out=target/bench
mkdir -p $out
python3 bench/deep.py $out/deep
$CXX -std=c++17 -O2 -Wall -Wextra $LINK bench/stack.cpp bench/ours.cpp bench/load.cpp -L "$LIB" -lcapi -o $out/stack
$RUN $out/stack $out/deep objects arrays lists choices unwrapped skipped
