#!/bin/sh
# Times the proved conflict test against C++, in one run. See README-conflict.md.
set -e
cd "$(dirname "$0")/.."
for tool in rt g++; do
    command -v $tool >/dev/null || { echo "bench/conflict.sh: needs $tool, which is not here" >&2; exit 2; }
done
sh tools/build.sh bench_conflict >/dev/null
mkdir -p target/bench
g++ -std=c++17 -O2 -o target/bench/conflict bench/conflict.cpp target/staticlib/libbench_conflict.a
target/bench/conflict
