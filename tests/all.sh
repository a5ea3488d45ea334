#!/bin/sh
# All that the gate cannot hold, one line each with its seconds; fails if any fails. What each printed stands in
# target/tests/all/NAME. (`exports` runs the examples in C and Rust too.)
set -u
cd "$(dirname "$0")/.."
for tool in rt gcc g++ rustc python3 objdump; do command -v "$tool" > /dev/null || { echo "missing: $tool"; exit 2; }; done
mkdir -p target/tests/all
passed=0
failed=0

# try NAME COMMAND…: runs it and says whether it passed.
try() {
    name=$1
    shift
    start=$(date +%s)
    if "$@" > "target/tests/all/$name" 2>&1; then
        passed=$((passed + 1))
        word=ok
    else
        failed=$((failed + 1))
        word=FAILED
    fi
    echo "$name: $word, $(($(date +%s) - start)) s"
    if [ "$word" = FAILED ]; then tail -n 3 "target/tests/all/$name" | sed 's/^/    /'; fi
}

try claims python3 tests/claims.py --check
try lines python3 tests/lines.py
try self_check python3 tests/self_check.py
if [ -f tests/wrong_runs.py ]; then try wrong_runs python3 tests/wrong_runs.py; fi
# The library is proved and built once, for all that follow.
try library sh tools/build.sh cop_c
export COP_BUILD=true
try exports sh tests/exports.sh
for folder in examples tests; do
    if [ -f $folder/durable.sh ]; then try "durable_$folder" sh $folder/durable.sh; fi
done
try differential sh tests/differential.sh
try log sh tests/log.sh
try tags sh bench/tags.sh
echo "$passed passed, $failed failed"
[ "$failed" -eq 0 ]
