#!/bin/sh
# Builds the archives for callers in C and Rust from the proved crates and puts them into target/staticlib under the names that
# callers know. A crate is a library for other crates or an archive, not both: the exports of a library that other crates use stand
# in a crate NAME_c, whose archive is called libNAME.a.
# Usage: tools/archives.sh [NAME...]; without a name all of them.
set -u
cd "$(dirname "$0")/.." || exit 2
[ $# -gt 0 ] || set -- mivtolgya mivtolgya_bridge elementary
mkdir -p target/staticlib target/log
for name; do
    crate=$name
    [ ! -d "crates/${name}_c" ] || crate=${name}_c
    if ! (cd "crates/$crate" && rt lib) >"target/log/$name.out" 2>&1; then
        tail -n 40 "target/log/$name.out"
        echo "archives: FAILED: the library $name could not be built"
        exit 1
    fi
    cp "crates/$crate/out/lib$crate.a" "target/staticlib/lib$name.a" || exit 1
done
