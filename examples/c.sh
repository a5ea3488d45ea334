#!/bin/sh
# Proves and builds the library, builds listing.c with it, runs it and holds what it prints to document 01's nine lines.
set -eu
cd "$(dirname "$0")/.."
${COP_BUILD:-sh tools/build.sh cop_c} | tail -n 1
mkdir -p target/examples
${CC:-gcc} -std=c11 -O2 -Wall -Wextra -Werror examples/listing.c target/staticlib/libcop_c.a -o target/examples/listing-c
target/examples/listing-c > target/examples/listing-c.out
cat target/examples/listing-c.out
cmp target/examples/listing-c.out examples/listing.out
