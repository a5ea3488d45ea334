#!/bin/sh
# Shows that tags are compared without a branch on their bytes, and times the comparison. See README-tags.md.
set -eu
cd "$(dirname "$0")/.."
for tool in rt gcc objdump python3; do command -v "$tool" > /dev/null || { echo "missing: $tool"; exit 2; }; done
[ -f /usr/include/openssl/crypto.h ] || { echo "missing: OpenSSL's headers (Debian: libssl-dev)"; exit 2; }
sh tools/build.sh bench_tags | tail -n 1
${COP_BUILD:-sh tools/build.sh cop_c} | tail -n 1
mkdir -p target/bench
gcc -c bench/branches.s -o target/bench/branches.o
gcc -O2 -Wall -Wl,-z,now bench/tag_paths.c target/staticlib/libcop_c.a target/staticlib/libbench_tags.a -o target/bench/tag_paths
gcc -O2 -Wall -fno-builtin bench/tags.c target/staticlib/libbench_tags.a -lcrypto -o target/bench/tags
echo "== machine code: the comparison of tags, and the one with an early exit"
python3 bench/branches.py target/staticlib/libbench_tags.a rattle_different_bits rattle_equal!
echo "== machine code: controls in assembler, of which those named refuse_ have to be refused and the others have to pass"
controls=$(nm target/bench/branches.o | sed -n 's/.* T //p' | sed 's/^refuse_.*/&!/')
python3 bench/branches.py target/bench/branches.o $controls
echo "== the library's calls, followed instruction by instruction"
target/bench/tag_paths
echo "== time"
target/bench/tags
