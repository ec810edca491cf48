#!/bin/sh
# The benchmark: the port through its library against the published Rust, with the C library's functions and with the port's, and
# against ngspice where it is installed (without it a line says so). FAIRCHILD_SRC names the folder of the published sources. Run
# from the repository's root; prints tables for docs/PERFORMANCE.md: all of them, or the one that a word names (loads, growth, bridge,
# ngspice, functions).
set -e
: "${FAIRCHILD_SRC:?set FAIRCHILD_SRC to the folder of the published Rust sources}"
for library in mivtolgya mivtolgya_bridge elementary; do
    [ -e "target/staticlib/lib$library.a" ] || tools/archives.sh "$library"
done
PORT_LIBS="$(pwd)/target/staticlib"
export PORT_LIBS
cargo run --release --offline --quiet --manifest-path bench/Cargo.toml --package bench -- "$@"
