#!/bin/sh
# Builds the proved digest and tag as a static library and times them beside plain C and OpenSSL. See README.md.
set -eu
cd "$(dirname "$0")/.."
for tool in rt gcc; do command -v "$tool" > /dev/null || { echo "missing: $tool"; exit 2; }; done
[ -f /usr/include/openssl/sha.h ] || { echo "missing: OpenSSL's headers (Debian: libssl-dev)"; exit 2; }
sh tools/build.sh cop_digest | tail -n 1
mkdir -p target/bench
gcc -O2 -Wall -c bench/plain.c -o target/bench/plain.o
gcc -O2 -Wall bench/digest.c target/bench/plain.o target/staticlib/libcop_digest.a -lcrypto -o target/bench/digest
echo "== OpenSSL as it is, with the processor's SHA instructions where it has them"
target/bench/digest
echo "== OpenSSL without SHA instructions"
OPENSSL_ia32cap=":~0x20000000" target/bench/digest
