#!/bin/sh
# Proves and builds the library, builds listing.rs with it, runs it and holds what it prints to document 01's nine lines.
set -eu
cd "$(dirname "$0")/.."
${COP_BUILD:-sh tools/build.sh cop_c} | tail -n 1
mkdir -p target/examples
rustc --edition 2021 -O -D warnings -A dead_code examples/listing.rs -L target/staticlib -l static=cop_c -o target/examples/listing-rust
target/examples/listing-rust > target/examples/listing-rust.out
cat target/examples/listing-rust.out
cmp target/examples/listing-rust.out examples/listing.out
