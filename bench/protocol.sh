#!/bin/sh
# Times the proved client and server beside the same protocol in plain C++ over OpenSSL. See README-protocol.md.
set -eu
cd "$(dirname "$0")/.."
for tool in rt gcc g++; do command -v "$tool" > /dev/null || { echo "missing: $tool"; exit 2; }; done
[ -f /usr/include/openssl/hmac.h ] || { echo "missing: OpenSSL's headers (Debian: libssl-dev)"; exit 2; }
sh tools/build.sh cop_c | tail -n 1
mkdir -p target/bench
g++ -std=c++17 -O2 -Wall -Wno-deprecated-declarations bench/protocol.cpp target/staticlib/libcop_c.a -lcrypto -o target/bench/protocol
echo "== OpenSSL as it is, with the processor's SHA instructions where it has them (not under the bar)"
target/bench/protocol || true
echo "== OpenSSL without SHA instructions (the bar: no ratio to the C++ above 1.00)"
OPENSSL_ia32cap=":~0x20000000" target/bench/protocol
