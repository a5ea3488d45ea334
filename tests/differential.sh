#!/bin/sh
# Proves and links the library, and holds it to cop.py on 1,000,000 drawn calls (or as many as said): tests/differential.sh [CALLS] [SEED]
set -eu
cd "$(dirname "$0")/.."
for tool in rt gcc python3; do command -v "$tool" > /dev/null || { echo "missing: $tool"; exit 2; }; done
${COP_BUILD:-sh tools/build.sh cop_c} | tail -n 1
mkdir -p target/tests
gcc -shared -o target/tests/libcop.so -Wl,--whole-archive target/staticlib/libcop_c.a -Wl,--no-whole-archive
exec python3 tests/differential.py "$@"
