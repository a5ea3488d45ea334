#!/bin/sh
# Proves and builds one thing: tools/build.sh NAME. A static library goes to target/staticlib/libNAME.a, a program to target/bin/NAME.
# (The exports of the library cop_digest are the crate cop_digest_c.)
set -eu
cd "$(dirname "$0")/.."
name=$1
crate=$name
if [ -d "crates/${name}_c" ]; then crate=${name}_c; fi
mkdir -p target/staticlib target/bin
# What an earlier build left is not taken for this one's.
rm -f "target/staticlib/lib$name.a" "target/bin/$name"
if [ -f "crates/$crate/src/main.rt" ]; then
    said=$(mktemp)
    trap 'rm -f "$said"' EXIT
    (cd "crates/$crate" && rt run < /dev/null) > "$said" 2>&1 || { cat "$said"; exit 1; }
    cp "crates/$crate/out/$crate" "target/bin/$name"
    echo "target/bin/$name"
else
    (cd "crates/$crate" && rt lib)
    cp "crates/$crate/out/lib$crate.a" "target/staticlib/lib$name.a"
fi
