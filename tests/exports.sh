#!/bin/sh
# The exported library as C, C++ and Rust programs get it: both examples print document 01's listing, each number of include/cop.h is
# said once (exports.c), and the header is taken as C++.
set -eu
cd "$(dirname "$0")/.."
sh examples/c.sh
sh examples/rust.sh
gcc -std=c11 -O1 -Wall -Wextra -Werror -fsanitize=address,undefined tests/exports.c target/staticlib/libcop_c.a -o target/examples/exports
target/examples/exports
g++ -std=c++17 -Wall -Wextra -Werror -fsyntax-only -x c++ include/cop.h
echo "exports: ok"
