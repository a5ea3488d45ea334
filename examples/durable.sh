#!/bin/sh
# Proves and builds the library, builds durable.c with it, lets its two clients and its server take turns until nothing
# is left to do, and holds what they show, and three cells, to durable.out. What a turn shows again is left out.
set -eu
cd "$(dirname "$0")/.."
${COP_BUILD:-sh tools/build.sh cop_c} | tail -n 1
folder=target/examples/durable.folder
rm -rf $folder && mkdir -p $folder
${CC:-gcc} -std=c99 -O2 -Wall -Wextra -Werror examples/durable.c target/staticlib/libcop_c.a -o target/examples/durable
run() { target/examples/durable $folder "$@"; }
run start
for round in 1 2 3 4 5 6 7 8 9 10 11 12 13 14 15 16; do
    run client 1
    run client 2
    run server
done | awk '!shown[$0]++' > target/examples/durable.out
run cells 1 > target/examples/durable.cells-1
run cells 2 | cmp - target/examples/durable.cells-1
head -n 3 target/examples/durable.cells-1 >> target/examples/durable.out
cat target/examples/durable.out
cmp target/examples/durable.out examples/durable.out
